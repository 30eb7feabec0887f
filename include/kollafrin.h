/* kollafrin: a SPIR-V module into records in lent stores, and back into bytes.
 *
 * The functions are in libkollafrin.a (`tools/archive`). docs/REFERENCE.md has all that a caller has to know on one page:
 * the stores, the kinds of operands, grammars, what is refused and in which order, and what to do about it.
 *
 * Each function is proved against its contract in crates/kollafrin/src/lib.rt: the number that it returns, each word of `answer` and
 * each store after it follow from what goes in, refused or not. None allocates, fails in another way than by its number, or keeps what
 * it is lent. What each takes of the stack is in kollafrin_stack: a thread that has less left ends with a fault.
 *
 * A store passes as a pointer and the number of its elements (words of a uint32_t store, bytes of a uint8_t store). What a caller
 * owes: every pointer is valid for its length and aligned for its type; and a store that is written (no `const`) overlaps no other
 * store of the same call. Where the length is 0 the pointer may be null. `header` and `answer` are arrays: their pointers are not null.
 *
 * The library has no data that changes, so calls may run in several threads at once, each on stores of its own; what a call only
 * reads (`const`) may be shared.
 *
 * Plain C99; also C++.
 */
#ifndef KOLLAFRIN_H
#define KOLLAFRIN_H

#include <stddef.h>
#include <stdint.h>

#ifdef __cplusplus
extern "C" {
#endif

/* The version of this header. It changes whenever the layout of a store or an answer changes, or what a call takes. A program compares it
 * with kollafrin_version() before any other call: where they differ, this header is not that of the library. */
#define KOLLAFRIN_VERSION 3

/* The numbers that the functions return; docs/REFERENCE.md ("The numbers") says more of each. The offset of a load's answer is where
 * each is found; where nothing is said of offset or value, they are 0. "Its instruction" is where the instruction starts. */
enum kollafrin_number {
    KOLLAFRIN_ACCEPTED = 0,                     /* Accepted. Load: the offset is the end of the whole words. */
    KOLLAFRIN_HEADER_INCOMPLETE = 1,            /* The header has less than five words. Offset of the missing word. */
    KOLLAFRIN_HEADER_INCORRECT = 2,             /* The first word is not the magic number. */
    KOLLAFRIN_HEADER_SWAPPED = 3,               /* The first word is the magic number with its bytes swapped. */
    KOLLAFRIN_WORD_COUNT_ZERO = 4,              /* An instruction says that it has no words. Its instruction. */
    KOLLAFRIN_OPCODE_UNKNOWN = 5,               /* The grammar has no such opcode. Its instruction; value: the opcode. */
    KOLLAFRIN_OPERAND_EXPECTED = 6,             /* An operand is missing at the end of an instruction. Where it should be. */
    KOLLAFRIN_OPERAND_EXCEEDED = 7,             /* An instruction has words left over. Where they begin. */
    KOLLAFRIN_LIMIT_REACHED = 8,                /* An operand runs past the words of its instruction. Where they end. */
    KOLLAFRIN_STREAM_ENDED = 9,                 /* A word or string runs past the module's bytes, or an enumerant is missing. Where. */
    KOLLAFRIN_ENUMERANT_UNKNOWN = 10,           /* The grammar has no such enumerant. Offset of its word; value: the word. */
    KOLLAFRIN_STRING_NOT_UTF8 = 11,             /* A string is not well-formed UTF-8. Where it starts. */
    KOLLAFRIN_TYPE_UNSUPPORTED = 12,            /* A literal's type has a width that is not read. Where the literal starts. */
    KOLLAFRIN_EMBEDDED_OPCODE_UNKNOWN = 13,     /* The opcode in an OpSpecConstantOp is unknown. Offset after its word. */
    KOLLAFRIN_EMBEDDED_ROW_UNFIT = 14,          /* That opcode's operands cannot be embedded. Offset after its word. */
    KOLLAFRIN_NESTED_FUNCTION = 15,             /* An OpFunction within a function. Its instruction. */
    KOLLAFRIN_UNCLOSED_FUNCTION = 16,           /* The module ends within a function. The end of the whole words. */
    KOLLAFRIN_MISMATCHED_FUNCTION_END = 17,     /* An OpFunctionEnd outside functions. Its instruction. */
    KOLLAFRIN_DETACHED_FUNCTION_PARAMETER = 18, /* An OpFunctionParameter outside functions. Its instruction. */
    KOLLAFRIN_DETACHED_BLOCK = 19,              /* An OpLabel outside functions. Its instruction. */
    KOLLAFRIN_NESTED_BLOCK = 20,                /* An OpLabel within a block. Its instruction. */
    KOLLAFRIN_UNCLOSED_BLOCK = 21,              /* An OpFunctionEnd, or the end of the whole words, within a block. Where. */
    KOLLAFRIN_MISMATCHED_TERMINATOR = 22,       /* A terminator outside blocks. Its instruction. */
    KOLLAFRIN_DETACHED_INSTRUCTION = 23,        /* Any other instruction that must stand in a block. Its instruction. */
    KOLLAFRIN_GRAMMAR_NOT_WELL_FORMED = 24,     /* The grammar's bytes are not well-formed. */
    KOLLAFRIN_NO_ROOM_INSTRUCTIONS = 25,        /* No room in `instructions` for an instruction's record. Its instruction. Of a book
                                                 * that is turned: no room in `out`. Index: the first record that does not fit. */
    KOLLAFRIN_NO_ROOM_LOG = 26,                 /* No room in `log` for its operands. Its instruction. */
    KOLLAFRIN_NO_ROOM_STRINGS = 27,             /* No room in `strings` for its strings. Its instruction. */
    KOLLAFRIN_NO_ROOM_TYPES = 28,               /* No room in `types` for its type entry. Its instruction. */
    KOLLAFRIN_OUTPUT_SHORT = 29,                /* A writer's output is shorter than the bytes to write. */
    KOLLAFRIN_BAD_RECORDS = 30,                 /* The records break the store layout. Index: the first bad one, or count + 1. */
    KOLLAFRIN_MODULE_TOO_LONG = 31,             /* The module has more than 67,108,864 bytes. */
    KOLLAFRIN_TEXT_LONG = 32,                   /* The output is shorter than the text. */
    KOLLAFRIN_NUMBERS_WRONG = 33,               /* Function or block number of a record is not what the tags call for. Its index. */
    KOLLAFRIN_GRAMMARS_CLASH = 34,              /* Two grammars have a row or an enumerant each in its own way. */
    KOLLAFRIN_JOINED_SHORT = 35                 /* The output is shorter than the two grammars joined. */
};

/* The sixteen words of a load's answer; word 15 is 0. */
enum kollafrin_load_word {
    KOLLAFRIN_LOAD_NUMBER = 0,       /* The number, as returned. */
    KOLLAFRIN_LOAD_OFFSET = 1,       /* Its byte offset in the module. */
    KOLLAFRIN_LOAD_INDEX = 2,        /* Its instruction's index from 1; at the end, count + 1; 0 after 1, 2, 3, 24 and 31. */
    KOLLAFRIN_LOAD_VALUE = 3,        /* Its value: of 5 the opcode, of 10 the word. */
    KOLLAFRIN_LOAD_INSTRUCTIONS = 4, /* How many instructions are kept, of KOLLAFRIN_RECORD words each. */
    KOLLAFRIN_LOAD_LOG = 5,          /* How many bytes of the operand log. */
    KOLLAFRIN_LOAD_STRINGS = 6,      /* How many bytes of strings. */
    KOLLAFRIN_LOAD_TYPES = 7,        /* How many type entries, of three words each. */
    KOLLAFRIN_LOAD_HEADER = 8,       /* Words 8 to 12: the five header words; 0 after 1, 2, 3, 24 and 31. */
    KOLLAFRIN_LOAD_PLAIN = 13,       /* 1 where the module is accepted and plain, else 0. */
    KOLLAFRIN_LOAD_BREAKS = 14       /* The lowest byte offset that breaks an accepted module that is not plain, else 0. */
};

/* The words of an instruction record; KOLLAFRIN_OLD_RECORD in an old book, which lacks function and block number. */
enum kollafrin_record { KOLLAFRIN_RECORD = 10, KOLLAFRIN_OLD_RECORD = 8 };

/* The presence bits of an instruction record's first word, which is the opcode + 65536 * these. */
enum kollafrin_presence { KOLLAFRIN_PRESENCE_RESULT_TYPE = 1, KOLLAFRIN_PRESENCE_RESULT_ID = 2 };

/* The section tags: the second word of an instruction record. */
enum kollafrin_tag {
    KOLLAFRIN_TAG_CAPABILITY = 1,             /* Capabilities. */
    KOLLAFRIN_TAG_EXTENSION = 2,              /* Extensions. */
    KOLLAFRIN_TAG_EXT_INST_IMPORT = 3,        /* Imports of extended instruction sets. */
    KOLLAFRIN_TAG_MEMORY_MODEL = 4,           /* Memory model. */
    KOLLAFRIN_TAG_ENTRY_POINT = 5,            /* Entry points. */
    KOLLAFRIN_TAG_EXECUTION_MODE = 6,         /* Execution modes. */
    KOLLAFRIN_TAG_DEBUG_STRING_SOURCE = 7,    /* Strings and sources. */
    KOLLAFRIN_TAG_DEBUG_NAME = 8,             /* Names. */
    KOLLAFRIN_TAG_DEBUG_MODULE_PROCESSED = 9, /* Notes of what processed the module. */
    KOLLAFRIN_TAG_ANNOTATION = 10,            /* Annotations. */
    KOLLAFRIN_TAG_TYPE_CONSTANT_GLOBAL = 11,  /* Types, constants, global variables, undefs and lines outside blocks. */
    KOLLAFRIN_TAG_FUNCTION = 12,              /* A function's definition (OpFunction). */
    KOLLAFRIN_TAG_FUNCTION_PARAMETER = 13,    /* A function's parameter. */
    KOLLAFRIN_TAG_LABEL = 14,                 /* A block's label. */
    KOLLAFRIN_TAG_BLOCK = 15,                 /* An instruction in a block, its terminator included. */
    KOLLAFRIN_TAG_FUNCTION_END = 16           /* A function's end. */
};

/* The kinds of operands: the first byte of a log record. 46 to 51 stand in grammars alone. */
enum kollafrin_kind {
    KOLLAFRIN_KIND_IMAGE_OPERANDS = 1,
    KOLLAFRIN_KIND_FP_FAST_MATH_MODE = 2,
    KOLLAFRIN_KIND_SELECTION_CONTROL = 3,
    KOLLAFRIN_KIND_LOOP_CONTROL = 4,
    KOLLAFRIN_KIND_FUNCTION_CONTROL = 5,
    KOLLAFRIN_KIND_MEMORY_SEMANTICS = 6,
    KOLLAFRIN_KIND_MEMORY_ACCESS = 7,
    KOLLAFRIN_KIND_KERNEL_PROFILING_INFO = 8,
    KOLLAFRIN_KIND_SOURCE_LANGUAGE = 9,
    KOLLAFRIN_KIND_EXECUTION_MODEL = 10,
    KOLLAFRIN_KIND_ADDRESSING_MODEL = 11,
    KOLLAFRIN_KIND_MEMORY_MODEL = 12,
    KOLLAFRIN_KIND_EXECUTION_MODE = 13,
    KOLLAFRIN_KIND_STORAGE_CLASS = 14,
    KOLLAFRIN_KIND_DIM = 15,
    KOLLAFRIN_KIND_SAMPLER_ADDRESSING_MODE = 16,
    KOLLAFRIN_KIND_SAMPLER_FILTER_MODE = 17,
    KOLLAFRIN_KIND_IMAGE_FORMAT = 18,
    KOLLAFRIN_KIND_IMAGE_CHANNEL_ORDER = 19,
    KOLLAFRIN_KIND_IMAGE_CHANNEL_DATA_TYPE = 20,
    KOLLAFRIN_KIND_FP_ROUNDING_MODE = 21,
    KOLLAFRIN_KIND_LINKAGE_TYPE = 22,
    KOLLAFRIN_KIND_ACCESS_QUALIFIER = 23,
    KOLLAFRIN_KIND_FUNCTION_PARAMETER_ATTRIBUTE = 24,
    KOLLAFRIN_KIND_DECORATION = 25,
    KOLLAFRIN_KIND_BUILT_IN = 26,
    KOLLAFRIN_KIND_SCOPE = 27,
    KOLLAFRIN_KIND_GROUP_OPERATION = 28,
    KOLLAFRIN_KIND_KERNEL_ENQUEUE_FLAGS = 29,
    KOLLAFRIN_KIND_CAPABILITY = 30,
    KOLLAFRIN_KIND_ID_MEMORY_SEMANTICS = 31,
    KOLLAFRIN_KIND_ID_SCOPE = 32,
    KOLLAFRIN_KIND_ID_REF = 33,
    KOLLAFRIN_KIND_LITERAL_INT32 = 34,
    KOLLAFRIN_KIND_LITERAL_EXT_INST_INTEGER = 35,
    KOLLAFRIN_KIND_LITERAL_INT64 = 36,
    KOLLAFRIN_KIND_LITERAL_FLOAT32 = 37,
    KOLLAFRIN_KIND_LITERAL_FLOAT64 = 38,
    KOLLAFRIN_KIND_LITERAL_SPEC_CONSTANT_OP_INTEGER = 39,
    KOLLAFRIN_KIND_LITERAL_STRING = 40,
    KOLLAFRIN_KIND_RAY_FLAGS = 41,
    KOLLAFRIN_KIND_RAY_QUERY_INTERSECTION = 42,
    KOLLAFRIN_KIND_RAY_QUERY_COMMITTED_INTERSECTION_TYPE = 43,
    KOLLAFRIN_KIND_RAY_QUERY_CANDIDATE_INTERSECTION_TYPE = 44,
    KOLLAFRIN_KIND_FRAGMENT_SHADING_RATE = 45,
    KOLLAFRIN_KIND_ID_RESULT_TYPE = 46,
    KOLLAFRIN_KIND_ID_RESULT = 47,
    KOLLAFRIN_KIND_LITERAL_CONTEXT_DEPENDENT_NUMBER = 48,
    KOLLAFRIN_KIND_PAIR_LITERAL_INTEGER_ID_REF = 49,
    KOLLAFRIN_KIND_PAIR_ID_REF_LITERAL_INTEGER = 50,
    KOLLAFRIN_KIND_PAIR_ID_REF_ID_REF = 51
};

/* The bytes of stack that a call takes at most on x86-64, for every input: the frames of the function and of all that it calls, return
 * addresses included, as counted in the compiled library and rounded up; for C's memset and memcpy, which the loads and
 * kollafrin_builtin call, 4,096 are counted. _SHORT is for a module of 16,384 bytes or less. */
enum kollafrin_stack {
    KOLLAFRIN_STACK_VERSION = 500,
    KOLLAFRIN_STACK_BUILTIN = 5000,
    KOLLAFRIN_STACK_LOAD = 120000,
    KOLLAFRIN_STACK_LOAD_SHORT = 60000,
    KOLLAFRIN_STACK_LOAD_BUILTIN = 92000,
    KOLLAFRIN_STACK_LOAD_BUILTIN_SHORT = 32000,
    KOLLAFRIN_STACK_WRITE_PARSE_ORDER = 1500,
    KOLLAFRIN_STACK_WRITE_MODULE_ORDER = 1500,
    KOLLAFRIN_STACK_DISASSEMBLE = 47000,
    KOLLAFRIN_STACK_STANDING = 1500,
    KOLLAFRIN_STACK_JOIN = 60000,
    KOLLAFRIN_STACK_NEW_BOOK = 1500,
    KOLLAFRIN_STACK_OLD_BOOK = 1500
};

/* A sentence for each number, for people; docs/REFERENCE.md ("In words") has the same. 9 has two causes, and for it alone `missing` is looked
 * at: 1 where the words of the instruction are all in the module, and a value or mask is missing at their end; 0 where the module ends. The
 * instruction refused starts where the last record kept ends, or at 20. */
static inline const char *kollafrin_sentence(uint32_t number, int missing) {
    switch (number) {
    case 0: return "the input is accepted";
    case 1: return "the module ends inside its header";
    case 2: return "the first word is not the magic number: this is no SPIR-V module";
    case 3: return "the first word is the magic number in the other byte order: the bytes of every word are swapped";
    case 4: return "the instruction says that it has no words";
    case 5: return "the opcode is not known to this grammar";
    case 6: return "the instruction's words end where an operand has to begin";
    case 7: return "words are left over after the last operand that the instruction has in this grammar";
    case 8: return "the instruction's words end inside an operand";
    case 9: return missing ? "a value or mask that belongs to an operand is missing at the end of the instruction's words"
                           : "the module ends inside an operand";
    case 10: return "the value or mask is not known to this grammar";
    case 11: return "a string is not well-formed UTF-8";
    case 12: return "the literal's type has a width that is not read";
    case 13: return "the embedded opcode is not known to this grammar";
    case 14: return "the embedded operation has operands that are not read there";
    case 15: return "a function begins inside a function";
    case 16: return "the module ends inside a function";
    case 17: return "a function ends where none has begun";
    case 18: return "a function parameter stands outside a function";
    case 19: return "a block begins outside a function";
    case 20: return "a block begins inside a block";
    case 21: return "a block is not ended";
    case 22: return "a terminator stands outside a block";
    case 23: return "the instruction is read in a block alone, and stands outside";
    case 24: return "the grammar is not well-formed";
    case 25: return "there is no room for another instruction record";
    case 26: return "there is no room in the operand log";
    case 27: return "there is no room for the string's bytes";
    case 28: return "there is no room for another type entry";
    case 29: return "the output is too short";
    case 30: return "a record breaks the layout of the stores, or has no name in a listing";
    case 31: return "the module has more than 67,108,864 bytes";
    case 32: return "the output is too short for the text";
    case 33: return "the function or block number is not the one that the tags call for";
    case 34: return "the two grammars have a row or an enumerant each in its own way";
    case 35: return "the output is too short for the two grammars joined";
    default: return "this number is not given";
    }
}

/* The version of the library, which is KOLLAFRIN_VERSION of its header. */
uint32_t kollafrin_version(void);

/* The length of the built-in grammar in bytes. Its bytes are put at the start of `out` where they fit; else `out` is unchanged. */
size_t kollafrin_builtin(uint8_t *out, size_t out_length);

/* Loads a module by a grammar, and returns the number.
 *
 * The stores: `instructions` takes ten words for each instruction (opcode + 65536 * presence, with 1 for a result type and 2 for a
 * result id; section tag; byte offset; result type or 0; result id or 0; start in the log; operand count; word count; function number;
 * block number). Functions are counted from 1 in the module, blocks from 1 in their function: with tags 14 and 15 both numbers are there,
 * with 12, 13 and 16 that of the function, and the block's is 0; with 1 to 11 both are 0, wherever the instruction stands. `log` takes
 * for each operand its kind in a byte, then 4 bytes, or 8 for a 64-bit literal and for a string (start and length in `strings`).
 * `strings` takes the bytes of the strings without their zero. `types` takes three words for each type entry (id; width; 1 unsigned,
 * 2 signed, 3 float). docs/REFERENCE.md has the section tags (1 to 16), the kinds of operands (1 to 45) and three examples.
 *
 * Sizes that always suffice, with W whole words after the header (W = module_length / 4 - 5): KOLLAFRIN_RECORD * W words of
 * instructions, 9 W bytes of log, 4 W bytes of strings, 3 W words of types.
 *
 * A refusal leaves in the stores, up to the counts in `answer`, the records of the instructions before the one refused; after 1, 2, 3,
 * 24 and 31 there are none. Accepted or refused, no store is changed past its count.
 *
 * A grammar is bytes: docs/REFERENCE.md ("Grammars") has its items and the rules of a well-formed one. It is checked at each call;
 * kollafrin_load_builtin has no need to. `answer`: see kollafrin_load_word. */
uint32_t kollafrin_load(const uint8_t *module_bytes, size_t module_length, const uint8_t *grammar, size_t grammar_length,
                        uint32_t *instructions, size_t instructions_length, uint8_t *log, size_t log_length, uint8_t *strings,
                        size_t strings_length, uint32_t *types, size_t types_length, uint32_t answer[16]);

/* The same by the built-in grammar: never 24. */
uint32_t kollafrin_load_builtin(const uint8_t *module_bytes, size_t module_length, uint32_t *instructions, size_t instructions_length,
                                uint8_t *log, size_t log_length, uint8_t *strings, size_t strings_length, uint32_t *types,
                                size_t types_length, uint32_t answer[16]);

/* Writes the header words and the instructions in the order read, and returns 0, 29 or 30. The counts are those of a load's answer
 * (words 4, 5 and 6), or of records made otherwise, which are checked first: 30, and docs/REFERENCE.md ("Writing") says what is bad.
 * Function and block number of a record are not read, here and in the calls below but kollafrin_old_book: any will do.
 *
 * The records of an accepted module are written as its whole words: 4 * (module_length / 4) bytes.
 *
 * `answer`: number; index of the first bad record from 1, or count + 1, after 30, else 0; bytes written, low word, then high word.
 * A refusal changes no byte of `out` and writes 0 bytes; else `out` is unchanged past the bytes written. */
uint32_t kollafrin_write_parse_order(const uint32_t header[5], const uint32_t *instructions, size_t instructions_length,
                                     const uint8_t *log, size_t log_length, const uint8_t *strings, size_t strings_length,
                                     size_t instruction_count, size_t log_count, size_t string_count, uint8_t *out,
                                     size_t out_length, uint32_t answer[4]);

/* The same in module order: a header with the constants of the library rspirv and of the version major and minor alone, the sections
 * one after the other, then the functions, each with its parameters first; of several OpMemoryModel the last alone. Records that end
 * within a function are 30 too. */
uint32_t kollafrin_write_module_order(const uint32_t header[5], const uint32_t *instructions, size_t instructions_length,
                                      const uint8_t *log, size_t log_length, const uint8_t *strings, size_t strings_length,
                                      size_t instruction_count, size_t log_count, size_t string_count, uint8_t *out,
                                      size_t out_length, uint32_t answer[4]);

/* Writes the records of a module as text, for people: four lines for the header, then a line for each instruction in module order, in ASCII,
 * without a line feed at the end; docs/REFERENCE.md ("The listing") has an example. Returns 0, 30 or 32: 30 as module order does, and also for
 * an opcode, an enumerant, a bit of a mask or an embedded opcode that has no name, whichever record comes first; 32 where the text does
 * not fit `out`.
 *
 * `answer`: number; index of the first bad record from 1, or count + 1, after 30, else 0; bytes written, low word, then high word.
 * A refusal changes no byte of `out` and writes 0 bytes; else `out` is unchanged past the bytes written. */
uint32_t kollafrin_disassemble(const uint32_t header[5], const uint32_t *instructions, size_t instructions_length, const uint8_t *log,
                               size_t log_length, const uint8_t *strings, size_t strings_length, size_t instruction_count,
                               size_t log_count, size_t string_count, uint8_t *out, size_t out_length, uint32_t answer[4]);

/* Whether the records of a module are standing: sections 1 to 11 first and in their order, no parameter after a label of its function,
 * exactly one OpMemoryModel, and no function without a label after one with a label. Both orders then write the same after the header.
 * Returns 0, or 30 as module order does.
 *
 * `answer`: number; index of the first bad record from 1, or count + 1, after 30, else 0; 1 for yes and 0 for no (0 after 30); 0. */
uint32_t kollafrin_standing(const uint32_t *instructions, size_t instructions_length, const uint8_t *log, size_t log_length,
                            const uint8_t *strings, size_t strings_length, size_t instruction_count, size_t log_count,
                            size_t string_count, uint32_t answer[4]);

/* Turns an old book into a new one: records of eight words, as they were before function and block number were added, into records of ten.
 * A book is the three stores of a module with their counts, as a writer takes them; `records` is its instruction store. Each record is put
 * into `out` with its eight words and, behind them, the two numbers that the tags call for (see kollafrin_load). Log and strings are looked
 * at alone: they are the same in both books.
 *
 * Returns 0, 25 or 30: 30 as parse order does, over records of eight words; then 25 where `out` has not room for all records, its length by
 * KOLLAFRIN_RECORD.
 *
 * `answer`: number; index, which is after 30 that of the first bad record from 1, or count + 1, and after 25 that of the first record that
 * does not fit, else 0; records written; 0. A refusal changes no word of `out` and writes 0 records; else `out` is unchanged past them. */
uint32_t kollafrin_new_book(const uint32_t *records, size_t records_length, const uint8_t *log, size_t log_length, const uint8_t *strings,
                            size_t strings_length, size_t instruction_count, size_t log_count, size_t string_count, uint32_t *out,
                            size_t out_length, uint32_t answer[4]);

/* Turns a new book into an old one: of each record the first eight words. What a book is turned into and back is the same, word for word.
 *
 * Returns 0, 25, 30 or 33: 30 as parse order does, over records of ten words; then 33 where function or block number of a record is not the
 * one that the tags call for, with the index of the first such record; then 25 where `out` has not room for all records, its length by
 * KOLLAFRIN_OLD_RECORD. `answer` and `out` as above. */
uint32_t kollafrin_old_book(const uint32_t *records, size_t records_length, const uint8_t *log, size_t log_length, const uint8_t *strings,
                            size_t strings_length, size_t instruction_count, size_t log_count, size_t string_count, uint32_t *out,
                            size_t out_length, uint32_t answer[4]);

/* Joins two grammars into one, written to `out`: the rows of both in rising opcodes, then the enumerants of both in rising kinds and values,
 * each with its operands or parameters as they came. One that is in both is taken once, where it is equal in every byte. At most
 * 65,535 bytes are written. With so much room the order and the grouping of grammars do not matter: the bytes are the same, or both refuse.
 *
 * Returns 0, 24, 34 or 35, the first that holds of: 24, the first grammar is not well-formed; 24, the second is not; 34, a row or an
 * enumerant is in both and not equal in every byte; 24, both together are not well-formed, since they have more than 65,535 bytes or a
 * parameter in one is of a kind that has parameters in the other; 35, they do not fit `out`.
 *
 * `answer`: number; place and value, which are after 34 either 0 and the lowest opcode that clashes or, where no rows clash, the kind and
 * the value of the lowest enumerant that does, else 0; bytes written. A refusal changes no byte of `out` and writes 0 bytes; else `out` is
 * unchanged past the bytes written. */
uint32_t kollafrin_join(const uint8_t *first, size_t first_length, const uint8_t *second, size_t second_length, uint8_t *out,
                        size_t out_length, uint32_t answer[4]);

#ifdef __cplusplus
}
#endif

#endif
