// The records that all kernels work on, and the kernels: those of Rattle, of plain C and of Boost.
#ifndef RECORDS_H
#define RECORDS_H
#ifdef __cplusplus
extern "C" {
#else
typedef _Bool bool;
#endif
typedef __INT32_TYPE__ i32;
typedef __INT64_TYPE__ i64;
typedef __SIZE_TYPE__ usize;

// A cell. It is empty where lower > upper, and where a bound is beyond the limit.
typedef struct { i32 lower, upper; } Record;
// A sum of products; where it is not filled it is empty.
typedef struct { bool filled; i64 least, greatest; } SumRecord;
#define LIMIT 131071
// `restrict` says what Rattle's borrow rules say: what is written overlaps nothing
#ifdef __cplusplus
#define ONLY __restrict__
#else
#define ONLY restrict
#endif

// ---- Rattle: a slice is a pointer and a length
#define RATTLE(answer, name, ...) answer bepyndo_##name(const Record *run, usize run_length, __VA_ARGS__, const Record *xs, usize xs_length, SumRecord *sums, usize sums_length)
RATTLE(bool, dense_by_columns, usize n);
RATTLE(void, dense_by_rows, usize n);
RATTLE(bool, band_by_columns, usize n, usize k, usize stride);
RATTLE(void, band_by_rows, usize n, usize k, usize stride);
RATTLE(bool, packed_by_columns, usize n);
RATTLE(void, packed_by_rows, usize n);
RATTLE(bool, symmetric_by_columns, usize n);
RATTLE(void, symmetric_by_rows, usize n);
RATTLE(bool, transposed_by_columns, usize n);
RATTLE(void, transposed_by_rows, usize n);

// ---- plain C
#define PLAIN(name, ...) void plain_##name(const Record *ONLY run, __VA_ARGS__, const Record *ONLY xs, SumRecord *ONLY sums)
PLAIN(dense_by_rows, usize n);
PLAIN(dense_by_columns, usize n);
PLAIN(band_by_rows, usize n, usize k);
PLAIN(band_by_columns, usize n, usize k);
PLAIN(packed_by_rows, usize n);
PLAIN(packed_by_columns, usize n);
PLAIN(symmetric_by_rows, usize n);
PLAIN(symmetric_by_columns, usize n);
PLAIN(transposed_by_rows, usize n);
PLAIN(transposed_by_columns, usize n);
#ifdef __cplusplus
}
#endif
#endif
