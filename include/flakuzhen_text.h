/* Signatures as text, for programs that use flakuzhen.h: they are written as one writes a prototype,
 * and no length is counted by hand.
 *
 *   ppc64 i32(u32, single, {u8, u16, {double}}, pointer)
 *   aix void(i32, ...)
 *   z {i64, i64}()
 *
 * The functions here are no part of the library, and not proved: compile signature_text.c, which is
 * installed in share/doc/flakuzhen beside the examples, into the program that uses them. It takes no
 * memory but some 36 KiB of stack, and keeps no state. What a text means is tested against a second
 * program; whether it is accepted the library says.
 *
 * The grammar, where white space stands between tokens as one likes, and '#' begins a comment that
 * ends with its line:
 *
 *   signature   convention result '(' arguments ')'
 *   convention  'ppc64', 'z', 'aix' or 'ppc64b'
 *   result      'void' or a type
 *   arguments   nothing, or '...', or types with ',' between them, after which ', ...' may stand
 *   type        'i8', 'u8', 'i16', 'u16', 'i32', 'u32', 'i64', 'u64', 'pointer', 'single', 'double',
 *               'longdouble', or a struct: '{', types with ',' between them, and '}'
 *
 * '...' is an ellipsis. A struct without fields follows the grammar too: what is accepted the library
 * decides, not the grammar. */
#ifndef FLAKUZHEN_TEXT_H
#define FLAKUZHEN_TEXT_H

#include "flakuzhen.h"

#ifdef __cplusplus
extern "C" {
#endif

/* The most bytes that a signature can have. */
#define FZ_LONGEST_SIGNATURE 16384

/* What became of a text.
 *
 *   follows the grammar,  `expected` is NULL and the answer's number 0
 *   and is accepted
 *   does not follow it    `expected` says in words what stands there by the grammar
 *   is refused            `expected` is NULL and the answer is the library's
 *
 * In the last two `offset`, `line` and `column` say where in the text: of the token that does not
 * belong there, or of the one that the refused item was made of. Lines and columns count from 1,
 * columns in bytes. */
typedef struct {
    fz_answer answer;
    const char *expected;
    uint64_t length; /* bytes of the signature or item; 0 where there is none */
    uint64_t offset, line, column;
} fz_encoded;

/* The bytes of the signature that a text says, of text_length bytes without a zero at its end. They
 * are written to sig, which has sig_length bytes, where they fit and the library accepts them
 * (fz_read_signature); else nothing is written, and `length` still says how many an accepted
 * signature has. FZ_LONGEST_SIGNATURE bytes are enough for every one. */
fz_encoded fz_encode(const char *text, size_t text_length, uint8_t *sig, size_t sig_length);

/* The same of a text that says one type, for fz_walk. Whether it is accepted fz_walk says. */
fz_encoded fz_encode_type(const char *text, size_t text_length, uint8_t *item,
                          size_t item_length);

/* Where in a text that was encoded the token stands that the byte `place` of its signature was made
 * of; `answer` is accepted, `expected` NULL and `length` the token's. A place at or after the
 * signature's end has the last token that gave bytes. For refusals that come later than an
 * encoding's, like FZ_UNCLEAR_PLACE. */
fz_encoded fz_token_at(const char *text, size_t text_length, uint64_t place);

/* What became of a signature's bytes: the library's answer, and the length of the text. */
typedef struct {
    fz_answer answer;
    uint64_t length; /* 0 where the signature is refused */
} fz_decoded;

/* The text of a signature, written to text where it fits in text_length bytes, else nothing is. No
 * zero is written at its end, nor counted. There is one text for each signature that is accepted: one
 * space after the convention and after each comma, and no other white space. Encoded, it gives the
 * same bytes again. */
fz_decoded fz_decode(const uint8_t *sig, size_t sig_length, char *text, size_t text_length);

/* The same of the one type whose item begins at sig[item]. The signature must be accepted, and the
 * item one of its types, as fz_plan names it; where sig_length ends before the item does, the length
 * is 0. */
uint64_t fz_decode_type(const uint8_t *sig, size_t sig_length, uint64_t item, char *text,
                        size_t text_length);

#ifdef __cplusplus
}
#endif

#endif
