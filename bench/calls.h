// Whole calls of a sheet: what is told with one, what it answers, and the kernels of Rattle and of plain C.
#ifndef CALLS_H
#define CALLS_H
#include "records.h"
#ifdef __cplusplus
extern "C" {
#endif
typedef __UINT32_TYPE__ u32;

// What is told with a call: the shape of the sheet, its target and one column more, the factors, and how many times the call is made
// and withdrawn before it is made and posted.
typedef struct {
  i64 scale;
  usize rows, columns, target, operand;
  Record alpha, beta;
  usize rounds;
} Asked;

// The number is 0 where the call is granted, and otherwise that of its refusal, with the row and the bound that it names.
typedef struct {
  u32 number;
  usize row;
  bool upper;
} AnswerRecord;

// A slice crosses as a pointer and a length. The sheet is opened over cells of its own, and its calls are supplied others.
#define SLICE(kind, name) kind *ONLY name, usize name##_length
#define MEMORY SLICE(Record, own), SLICE(Record, cells), SLICE(Record, draft)
#define CALL(name, ...) AnswerRecord bepyndo_##name(__VA_ARGS__, const Asked *asked, MEMORY); AnswerRecord plain_##name(__VA_ARGS__, const Asked *asked, MEMORY);
CALL(dot, usize row, usize other)
CALL(product_dense, SLICE(const Record, run), usize n)
CALL(product_band, SLICE(const Record, run), usize n, usize k, usize stride)
CALL(product_packed, SLICE(const Record, run), usize n)
CALL(solve_dense, SLICE(const Record, run), usize n)
CALL(solve_band, SLICE(const Record, run), usize n, usize k, usize stride)
CALL(solve_packed, SLICE(const Record, run), usize n)
// the product over a dense matrix once more, worked column by column
AnswerRecord plain_product_dense_by_columns(SLICE(const Record, run), usize n, const Asked *asked, MEMORY);
#ifdef __cplusplus
}
#endif
#endif
