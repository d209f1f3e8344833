/* Yunverok: load, join, search, fold, replay, widen, write and generate AIGER circuits, and show the run of a witness as a waveform, for
   two users of one circuit. The functions are proved: crates/interface_c/src/lib.rt has their contracts, which this page tells in words. They
   are in the archive libyunverok.a, which library/build makes.

   What is lent. A slice is a pointer and a length in elements. The memory must exist; a pointer must be aligned for its element; a
   slice that is written must overlap no other one of the call. Where a length is 0 the pointer may be anything, null too: it is not
   used. Beyond that nothing is asked: every length, every contents and every number is safe, and gets one of the answers below. Nothing
   outside the lent slices is read or written. Nothing is kept between calls, and there is no heap and no static data that changes, so
   several threads may call at once if none writes what another one uses.

   Arguments stand in one order: the user; what users share; circuit memory; what is asked, numbers, texts and other memories; working
   memory; output; answer. All numbers and lengths are of 64 bits.

   yunverok_version returns the version. Every other function returns 0 or the number of its refusal, and a refused call changes nothing
   that was lent. The tests of a function are made in the order that is given with it.
     1  file empty or over 65,536 bytes              8  gates depend on themselves
     2  header not as described                      9  the needed words of circuit memory are not what an accepted load leaves
     3  a count too large, I+L+A above M (*)        10  b not below B
     4  circuit memory shorter than the needed      11  k or t above 255; d 0 or above 4,294,967,296
        words                                       12  size above 65,536, or work shorter than 16 * size words
     5  a line missing or malformed, a wrong tail   13  out too short
     6  literal, definition or reset wrong          14  witness malformed, or its b not below B
     7  a used variable is undefined                16  witness with more than 16 x
    15  in a binary file: a difference absent, cut short, of more than five groups or 32 bits, or an operand not below its gate or below 0
    17  circuits to join: no output or more than 16, or not the same numbers of inputs and of outputs
    19  a starting place above 2 to the power 62, or not below 2 to the power n
    18  a user who may not call the function; for a pin also a value above 2, an input that is not there, and a pin that has no byte
    21  the form is neither 0 nor 1
   (*) in a binary file I+L+A other than M; of generate, counts that are not permitted.

   The answer (answer) has sixteen places, each with one meaning in all functions; the names below are the numbers of the places. A call
   that is not refused writes all of them, 0 where a place does not apply; a refused call writes none. Places that are not there,
   because answer is shorter, are not written, and numbers past the sixteenth are left as they are, so that answer may be of any length.

   Users are 0 and 1. Who has one user is user 0. What users share (shared) is bytes: byte i is the pin of input i of user 0, byte 256 +
   i that of user 1. 0 and 1 hold the input at that value in all frames, any other byte leaves it free. The bytes from 512 to 2,559 are
   kept for what later versions let users share, 1,024 for each user; an accepted load or join makes them, and all that follow, 0. Any
   length is permitted: a byte that is not there counts as a free pin and as not in use. With length 0 all pins of both users are free,
   and either user may call. Bytes of value 0 hold inputs at 0: who lends bytes that no accepted load or join has set fills the first 512
   with 2 and the others with 0, or lends length 0. Where a function takes no shared bytes it does not depend on pins. A call changes
   nothing but what it says, so that neither user disturbs the other.

   Free bits, sequences, counting order. The free bits of frame t are the start values of the latches with a free start, in file order,
   and then the inputs of frame 0, 1, .. t, each time in file order; an input that the user holds is no free bit and has its pin's value.
   n is their number. A sequence gives each of them a value, so that frame t has 2 to the power n sequences. Counting order reads a
   sequence as a binary number whose most significant digit is the first free bit: the first sequence has 0 everywhere, and the first d
   are the numbers below d. A sequence hits bad line b at frame t where bad line b is true in frame t and every constraint in each frame
   from 0 to t.

   A witness is a text of these lines, each ended by a line feed: 1; b and the number of the bad line, as in b0; the start values of the L
   latches; for each frame from 0 on the values of the I inputs, held ones too; a full stop. Values are 0 or 1, in file order, with nothing
   between them; with no latch or no input such a line is empty. Where a function takes a witness, up to 16 values may be x, which may be
   either; a completion has 0 or 1 in place of each x.

   Circuit memory (circuit): 8 * (M + 1) + 256 words are needed, at most 33,032. An accepted load fills them (docs/MEMORY.md has the
   layout: words 0 to 6 are M I L O A B C); a copy of them is as good as the original, and words past them do not matter. Only
   yunverok_load and yunverok_join change it.

   Working memory (work): 16 words for each unit of size, at most 1,048,576. The size for bound or frame k is (k + 1) * (I + A + C + 1)
   + U + 1, U the number of latches with a free start, and is at most 65,536; pins do not change it. What working memory holds before a
   call never matters. What it holds after a call that is not refused is not promised.

   Stack. At most 240 kilobytes are used by search and 195 by fold where a pin of the user holds an input, 140 by either where none does;
   190 by write, 165 by replay, and 105 by the others, whatever the circuit; docs/MEMORY.md has the greatest depth measured for
   each function. These were measured with an older Rattle kit and were not measured again. */
#ifndef YUNVEROK_H
#define YUNVEROK_H
#include <stdint.h>

/* Lengths that are never too short: of circuit memory and working memory in words; of the output of search and of widen (the longest
   witness that replay accepts; that of a search has at most 66,568 bytes), of write in form 0 and in form 1, of fold, of waveform and of
   generate in bytes; of what users share in bytes; and of an answer in numbers. A file to load has at most YUNVEROK_TEXT bytes. */
#define YUNVEROK_MEMORY 33032
#define YUNVEROK_WORK 1048576
#define YUNVEROK_WITNESS 66825
#define YUNVEROK_TEXT 65536
#define YUNVEROK_BINARY 24576
#define YUNVEROK_FOLD 1572928
#define YUNVEROK_WAVEFORM 1456223
#define YUNVEROK_GENERATED 55798
#define YUNVEROK_SHARED 2560
#define YUNVEROK_ANSWER 16

/* What an answer tells at each place. */
enum yunverok_place {
    YUNVEROK_KIND = 0,    /* the kind of the answer, below */
    YUNVEROK_FRAME = 1,   /* of a search: the frame of found and of spent, the bound of none */
    YUNVEROK_LENGTH = 2,  /* how many bytes stand at the front of out */
    YUNVEROK_WORDS = 3,   /* how many words of circuit memory the circuit needs, where a file or a join gave it */
    YUNVEROK_REACHED = 4, /* of a search that is spent: R, how far it got in the frame */
    YUNVEROK_M = 5,       /* the counts of that circuit: greatest variable number, */
    YUNVEROK_I = 6,       /* inputs, */
    YUNVEROK_L = 7,       /* latches, */
    YUNVEROK_O = 8,       /* outputs, */
    YUNVEROK_A = 9,       /* gates, */
    YUNVEROK_B = 10,      /* bad lines, */
    YUNVEROK_C = 11,      /* constraints */
    YUNVEROK_ALWAYS = 12, /* of a search: 1 where a none holds for every bound. The flag is no part of the same answer under a larger
                             budget: a larger budget or bound may set it where it was 0 */
    YUNVEROK_LOAD = 13    /* of a preview: the number with which load would refuse, 0 where it would accept */
};                        /* places 14 and 15 are 0 in this version */

/* The kinds of answers. */
enum yunverok_kind {
    YUNVEROK_DONE = 0,  /* done, in every function but search and replay */
    YUNVEROK_FOUND = 1, /* of a search: a frame has a hit */
    YUNVEROK_NONE = 2,  /* of a search: no frame has one */
    YUNVEROK_SPENT = 3, /* of a search: the budget does not suffice */
    YUNVEROK_ALL = 4,   /* of a replay: every completion hits */
    YUNVEROK_NO = 5,    /* of a replay: none does */
    YUNVEROK_MIXED = 6  /* of a replay: some do and some do not */
};

#ifdef __cplusplus
extern "C" {
#endif

/* The number of this interface: 2. It grows by 1 with each delivery that changes it. */
uint64_t yunverok_version(void);

/* Loads an AIGER 1.9 file, in ASCII or in binary form, told apart by the header's first word, aag or aig. User 0 alone may. Returns 0,
   and the needed words of circuit then hold the circuit, the words past them are as they were; the first 512 bytes of shared are 2, so
   that all pins of both users are free, and those after them 0; answer tells the words needed and the counts. Or returns the number of
   the refusal, and circuit, shared and answer are as they were: 18 for any other user, tested first; then 1 to 8, in this order, each
   over the whole file. 15 is tested together with 5, and of these two the fault that stands first in the file counts. A binary file
   never gets 7 or 8. */
uint64_t yunverok_load(uint64_t user, uint8_t *shared, uint64_t shared_len, uint32_t *circuit, uint64_t circuit_len, const uint8_t *file,
                       uint64_t file_len, uint64_t *answer, uint64_t answer_len);

/* Joins the circuits in first and second, which are read only, into circuit: the same inputs for both, by their place in the list; the
   latches, gates and constraints of both, those of first before those of second; and for each pair of outputs, p of first and q of
   second, three gates, listed last: p with not q, not p with q, and the complements of these two. Bad lines and outputs of both are
   dropped: the joined circuit has no output, and its bad line j, the complement of the third gate of pair j, asks whether the outputs j
   differ. Variables are numbered from 1 on in the order inputs, latches, gates, as they are listed, so that M is I + L + A. User 0 alone
   may. Returns 0, and circuit then holds the joined circuit as an accepted load of its text leaves it, the words past those needed as
   they were; the first 512 bytes of shared are 2 and those after them 0; answer tells the words needed and the counts of the joined
   circuit. Or returns the number of the refusal, 18, 9 for first or second, 17, 3 or 4, in this order, and circuit, shared and answer
   are as they were. A search of circuit for bad line j then finds a shortest allowed run in which the outputs j differ in the last frame,
   says that there is none in frames 0 to k, or is spent. */
uint64_t yunverok_join(uint64_t user, uint8_t *shared, uint64_t shared_len, uint32_t *circuit, uint64_t circuit_len, const uint32_t *first,
                       uint64_t first_len, const uint32_t *second, uint64_t second_len, uint64_t *answer, uint64_t answer_len);

/* Preview of a load: what a load of the file by user 0 would answer for a circuit memory as long as circuit. Of circuit the length alone
   matters; what it holds does not, and stays. Either user may. Returns 0, and answer tells in place YUNVEROK_LOAD the number with which
   load would refuse the file, 1 to 8 or 15, or 0 where it would accept it; the words that the circuit needs, 0 where that number is 1 to
   3; and the counts where load would accept it. Or returns 18 for a user who is neither 0 nor 1, and answer is as it was. */
uint64_t yunverok_preview(uint64_t user, const uint32_t *circuit, uint64_t circuit_len, const uint8_t *file, uint64_t file_len,
                          uint64_t *answer, uint64_t answer_len);

/* Sets the user's pin of an input: value 0 or 1 holds it at that value, 2 frees it. Returns 0, and the byte of that pin has the value,
   all other bytes of shared are as they were; answer tells that it is done. Or returns 18 for a user who is neither 0 nor 1 or a value
   above 2, then 9, then 18 for an input that the circuit does not have or whose byte is not there, and shared and answer are as they
   were. */
uint64_t yunverok_pin(uint64_t user, uint8_t *shared, uint64_t shared_len, const uint32_t *circuit, uint64_t circuit_len, uint64_t input,
                      uint64_t value, uint64_t *answer, uint64_t answer_len);

/* Searches frames 0 to k for a hit of bad line b, with a budget of d sequences for each frame. Returns 0, and answer tells the kind:
     YUNVEROK_FOUND   frame t is the first with a hit, and the witness of its first hit in counting order stands at the front of out; frame
                      and length are told;
     YUNVEROK_NONE    no frame from 0 to k has a hit; the frame that is told is k. Where place YUNVEROK_ALWAYS is 1 no frame at all has one,
                      however late; 0 says nothing of later frames (clause 3.9 of docs/REQUIREMENT.md);
     YUNVEROK_SPENT   frames before t have no hit, frame t has more than d sequences, and none of its first d hits; frame t is told, and R
                      in place YUNVEROK_REACHED: none of the first R sequences of frame t hits. R is d or more, below 2 to the power n,
                      and not above 2 to the power 62.
   What is told depends on the circuit, the user's pins, b, k and d alone. Or returns the number of the refusal, 18 for a user who is
   neither 0 nor 1 and then 9 to 13, and work, out and answer are as they were. out needs the length of the witness at bound k: with the
   decimal digits of b, 2 + (1 + digits + 1) + (L + 1) + (k + 1) * (I + 1) + 2 bytes. All bytes of out past the witness are as they
   were, all of them where the kind is not found. shared and circuit are read only. With a large d a search can take long. */
uint64_t yunverok_search(uint64_t user, const uint8_t *shared, uint64_t shared_len, const uint32_t *circuit, uint64_t circuit_len,
                         uint64_t b, uint64_t k, uint64_t d, uint32_t *work, uint64_t work_len, uint8_t *out, uint64_t out_len,
                         uint64_t *answer, uint64_t answer_len);

/* Searches frame t alone for a hit of bad line b among its sequences from a place on: place p is the p-th sequence in counting order, the
   first of which is 0. The budget is d sequences. Returns 0, and answer tells the kind, and the frame t in place YUNVEROK_FRAME:
     YUNVEROK_FOUND   the witness of the first hit at or after the place stands at the front of out; its length is told;
     YUNVEROK_NONE    no sequence from the place on hits; place YUNVEROK_ALWAYS is 0;
     YUNVEROK_SPENT   the frame has more than place + d sequences, and none of the d from the place on hits; R is told in place
                      YUNVEROK_REACHED: none of the sequences from the place up to R hits. R is place + d or more, but not above 2 to
                      the power 62, and below 2 to the power n.
   Earlier frames do not count: a hit that found shows may not be of the first frame with one. Where this call or yunverok_search is spent
   with R, a call with the same b and t and with R as the place goes on there; what such a chain of calls ends with is what one call from
   its first place with a budget large enough tells, with the same witness. Where d cannot raise R any more because R is 2 to the power
   62, the d sequences from there are still searched.
   What is told depends on the circuit, the user's pins, b, t, the place and d alone. n counts the inputs that the user's pins leave free.
   Or returns the number of the refusal, 18 for a user who is neither 0 nor 1 and then 9, 10, 11, 19, 12 and 13, and work, out and answer
   are as they were. work and out need what yunverok_search needs for bound t. shared and circuit are read only. */
uint64_t yunverok_search_from(uint64_t user, const uint8_t *shared, uint64_t shared_len, const uint32_t *circuit, uint64_t circuit_len,
                              uint64_t b, uint64_t t, uint64_t place, uint64_t d, uint32_t *work, uint64_t work_len, uint8_t *out,
                              uint64_t out_len, uint64_t *answer, uint64_t answer_len);

/* Folds the hit of bad line b at frame t into one circuit over the n free bits of that frame. Returns 0, and the circuit's text stands at
   the front of out as an AIGER file in ASCII; answer tells its length. The text has seven header numbers, no latch, no bad line and no
   constraint. Its inputs are variables 1 to n, the free bits in their order; its one output is true exactly for the sequences that hit;
   its gates are the variables from n + 1 on without a gap, each with operands of smaller variables, the larger operand first. Of the gates:
     - no operand is constant, and the two operands are neither equal nor opposite;
     - no operand is repeated one gate down: where an operand is gate h or its complement, the complement of the other operand is none of
       the operands of h, and where it is h itself, neither is the other operand;
     - no two gates have the same operands;
     - every gate leads to the output;
     - with n at most 12 no gate is equal or opposite in function to another one, to a constant or to an input.
   The text depends on the circuit, the user's pins, b and t alone. Or returns the number of the refusal, 18 for a user who is neither 0
   nor 1 and then 9 to 13, and work, out and answer are as they were. out needs 24 * size + 64 bytes, the size taken at t; the bytes past
   the text are as they were. shared and circuit are read only. A text with more than 256 inputs or 3,072 gates is past what load
   accepts. */
uint64_t yunverok_fold(uint64_t user, const uint8_t *shared, uint64_t shared_len, const uint32_t *circuit, uint64_t circuit_len,
                       uint64_t b, uint64_t t, uint32_t *work, uint64_t work_len, uint8_t *out, uint64_t out_len, uint64_t *answer,
                       uint64_t answer_len);

/* Replays a witness of 1 to 256 frames. A completion of it hits if its start agrees with every reset, each held input has its pin's
   value in every frame, and its last frame is a hit of its bad line. Returns 0, and answer tells the kind: YUNVEROK_ALL where every
   completion hits, YUNVEROK_NO where none does, else YUNVEROK_MIXED. Or returns the number of the refusal, 18 for a user who is neither
   0 nor 1 and then 9, 14 or 16, and answer is as it was. Nothing but answer is changed. */
uint64_t yunverok_replay(uint64_t user, const uint8_t *shared, uint64_t shared_len, const uint32_t *circuit, uint64_t circuit_len,
                         const uint8_t *text, uint64_t text_len, uint64_t *answer, uint64_t answer_len);

/* Widens a witness: from its last bit to its first, puts x where every completion still hits as a replay by this user says, until the
   text holds 16; so no x is put at an input that the user holds. Returns 0, and the widened text, as long as the given one, stands at
   the front of out; answer tells its length. A witness to which replay does not tell all is copied as it is. Or returns the number of
   the refusal, 18 for a user who is neither 0 nor 1 and then 9, 14, 16 or 13, in this order, and out and answer are as they were. out
   needs the witness's length; the bytes past the text are as they were. shared, circuit and text are read only. With many x a call can
   take long: each of at most 65,536 completions may be evaluated for each bit. */
uint64_t yunverok_widen(uint64_t user, const uint8_t *shared, uint64_t shared_len, const uint32_t *circuit, uint64_t circuit_len,
                        const uint8_t *text, uint64_t text_len, uint8_t *out, uint64_t out_len, uint64_t *answer, uint64_t answer_len);

/* Shows the run of a witness of 1 to 256 frames as a value change dump (VCD), one time step of 1 ns a frame: inputs i0 i1 .., latches
   l0 .., outputs o0 .., bad lines b0 .. and constraints c0 .. in file order, or, where inputs is not 0, the inputs alone. Either user
   may, and pins change nothing. Returns 0, and the text stands at the front of out; answer tells its length. Or returns the number of
   the refusal, 18 for a user who is neither 0 nor 1 and then 9, 14, 16 or 13, in this order, and out and answer are as they were. out
   needs the text's length, at most YUNVEROK_WAVEFORM; the bytes past the text are as they were. The start need not agree with the
   resets, nor the last frame be a hit. Where the witness holds x, a wire is 0 or 1 in a frame where every completion gives it that
   value, else x. */
uint64_t yunverok_waveform(uint64_t user, const uint32_t *circuit, uint64_t circuit_len, const uint8_t *text, uint64_t text_len,
                           uint64_t inputs, uint8_t *out, uint64_t out_len, uint64_t *answer, uint64_t answer_len);

/* Writes the circuit as an AIGER file in a form. Form 0 is the ASCII form: seven header numbers, definitions in file order, a reset only
   where it is not 0, no tail. Form 1 is the binary form: seven header numbers, a reset only where it is not 0, differences in the fewest
   groups, no tail; variables get new numbers, inputs, latches, then gates, each time the earliest listed gate whose operands have
   numbers, and the larger operand of a gate comes first. Either user may, and pins change nothing. Returns 0, and the text stands at the
   front of out; answer tells its length. Or returns the number of the refusal, 18 for a user who is neither 0 nor 1, then 21, 9 or 13, in
   this order, and out and answer are as they were. out needs the text's length, in form 0 at most YUNVEROK_TEXT, in form 1 at most
   YUNVEROK_BINARY; the bytes past the text are as they were. A call with form 0 or 1 and out_len 0 returns 13 where circuit holds a
   circuit, and 9 where it holds none. */
uint64_t yunverok_write(uint64_t user, const uint32_t *circuit, uint64_t circuit_len, uint64_t form, uint8_t *out, uint64_t out_len,
                        uint64_t *answer, uint64_t answer_len);

/* Generates a circuit from a seed and counts, as an AIGER file in ASCII: the same seed and counts give the same bytes wherever it runs.
   Variables are numbered in the order inputs, latches, gates, so that M is inputs + latches + gates. The seed is the state of Knuth's MMIX
   generator. Each latch's next literal, in file order, and then for each gate its first and its second operand takes one draw, the upper
   32 bits of the state after the step, modulo the number of literals that may stand there: 2M + 2 for a latch, 2v for the gate of
   variable v. The header has six numbers; there is no output, constraint, reset or tail, and the one bad line is the last gate. It needs no
   memory but out and takes no user: nothing is loaded, and user 0 may load what is written. Returns 0, and the text stands at the
   front of out; answer tells its length. Or returns 3 for inputs above 256, latches above 1,024, gates above 3,072, more than 4,096 of
   them together, no gate, or neither input nor latch; then 13 for an out that is shorter than the text; and out and answer are as they
   were. out needs the text's length, at most YUNVEROK_GENERATED; the bytes past the text are as they were. */
uint64_t yunverok_generate(uint64_t seed, uint64_t inputs, uint64_t latches, uint64_t gates, uint8_t *out, uint64_t out_len,
                           uint64_t *answer, uint64_t answer_len);

#ifdef __cplusplus
}
#endif
#endif
