/* Reads a template from standard input and prints its pieces and what is wrong in it. */
#include "../include/nitarehpu.h"

#include <stdio.h>

#define LONGEST 65535
#define RECORDS 1024

static uint8_t text[LONGEST + 1];
static nitarehpu_piece_t pieces[RECORDS];
static nitarehpu_error_t errors[RECORDS];

static void print_bytes(uint32_t start, uint32_t end) {
    printf("\"%.*s\"", (int)(end - start), (const char *)text + start);
}

static void print_place(const nitarehpu_piece_t *piece) {
    switch (piece->place) {
    case 0:
        printf("the next argument, number %u", (unsigned)piece->place_value);
        break;
    case 1:
        printf("argument %u", (unsigned)piece->place_value);
        break;
    case 3:
        printf("a number over range");
        break;
    default:
        print_bytes(piece->place_value, piece->place_end);
    }
}

static void print_count(const char *what, const nitarehpu_amount_t *count) {
    switch (count->kind) {
    case 0:
        return;
    case 1:
        printf(", %s %u", what, (unsigned)count->value);
        break;
    case 4:
        printf(", %s from ", what);
        print_bytes(count->value, count->name_end);
        break;
    case 5:
        printf(", %s over range", what);
        break;
    case 6:
        printf(", %s from an argument over range", what);
        break;
    default:
        printf(", %s from argument %u", what, (unsigned)count->value);
    }
}

static void print_piece(const nitarehpu_piece_t *piece) {
    if (piece->kind == 0) {
        printf("literal ");
        print_bytes(piece->start, piece->end);
        printf("\n");
        return;
    }
    printf("argument ");
    print_place(piece);
    print_count("width", &piece->width);
    print_count("precision", &piece->precision);
    if (piece->type_start < piece->type_end) {
        printf(", type ");
        print_bytes(piece->type_start, piece->type_end);
    }
    printf("\n");
}

int main(void) {
    size_t answer[NITAREHPU_ANSWER_NUMBERS];
    size_t length = fread(text, 1, sizeof text, stdin);
    uint8_t number = nitarehpu_read(text, length, text, 0, NITAREHPU_FORMAT, 0, 0, 0, 0, (uint32_t *)pieces,
                                    RECORDS * NITAREHPU_PIECE_NUMBERS, (uint32_t *)errors, RECORDS * NITAREHPU_ERROR_NUMBERS, answer, 0,
                                    answer, 0, answer, NITAREHPU_ANSWER_NUMBERS);
    if (number != NITAREHPU_DONE) {
        printf("refused: %u at %zu\n", (unsigned)number, answer[1]);
        return 1;
    }
    for (size_t i = 0; i < answer[2]; i++) {
        print_piece(&pieces[i]);
    }
    for (size_t i = 0; i < answer[3]; i++) {
        printf("error of kind %u at %u..%u\n", (unsigned)errors[i].kind, (unsigned)errors[i].span_start, (unsigned)errors[i].span_end);
    }
    return 0;
}

/* The layout that the header promises. */
_Static_assert(sizeof(nitarehpu_piece_t) == NITAREHPU_PIECE_NUMBERS * sizeof(uint32_t), "a piece is 40 numbers");
_Static_assert(sizeof(nitarehpu_error_t) == NITAREHPU_ERROR_NUMBERS * sizeof(uint32_t), "an error is 16 numbers");
