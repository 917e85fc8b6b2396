/* Plays the game of life. Standard input is a board, a line a row: # is a living cell, all else is a dead one. A row
   goes round at its ends, and so do the rows. The boards after 5 and 10 turns are printed, each with the number of its
   living cells.

   A row is kept in words of 32 cells and begins at a multiple of 64, so that it lies in as few lines of a cache as it
   can. The status is 1 where the heap has no room, 2 where a row isn't aligned. */
#include "heap.h"
#include "out.h"

#define ROWS 24
#define COLUMNS 96
#define WORDS (COLUMNS / 32)
#define LINE 64

static uint32_t *now[ROWS];
static uint32_t *next[ROWS];

static char bytes[1000];

static int is_alive(uint32_t *const *board, unsigned row, unsigned column)
{
    return board[row][column / 32] >> column % 32 & 1;
}

static void set(uint32_t *const *board, unsigned row, unsigned column, uint32_t alive)
{
    uint32_t bit = (uint32_t)1 << column % 32;
    uint32_t *word = &board[row][column / 32];
    *word = alive ? *word | bit : *word & ~bit;
}

/* A row of dead cells; none where the heap has no room for it. */
static uint32_t *new_row(void)
{
    uint32_t *row = aligned_alloc(LINE, LINE);
    for (unsigned i = 0; row != 0 && i < WORDS; i++)
        row[i] = 0;
    return row;
}

static int new_board(uint32_t **board)
{
    for (unsigned row = 0; row < ROWS; row++) {
        board[row] = new_row();
        if (board[row] == 0)
            return 1;
        if ((uintptr_t)board[row] % LINE != 0)
            return 2;
    }
    return 0;
}

static unsigned neighbours(unsigned row, unsigned column)
{
    unsigned count = 0;
    for (unsigned down = 0; down < 3; down++) {
        for (unsigned right = 0; right < 3; right++) {
            if (down != 1 || right != 1)
                count += (unsigned)is_alive(now, (row + ROWS - 1 + down) % ROWS, (column + COLUMNS - 1 + right) % COLUMNS);
        }
    }
    return count;
}

static void turn(void)
{
    for (unsigned row = 0; row < ROWS; row++) {
        for (unsigned column = 0; column < COLUMNS; column++) {
            unsigned around = neighbours(row, column);
            set(next, row, column, around == 3 || (around == 2 && is_alive(now, row, column)));
        }
    }
    for (unsigned row = 0; row < ROWS; row++) {
        uint32_t *old = now[row];
        now[row] = next[row];
        next[row] = old;
    }
}

static void print(unsigned turns)
{
    unsigned living = 0;
    for (unsigned row = 0; row < ROWS; row++) {
        for (unsigned column = 0; column < COLUMNS; column++) {
            int alive = is_alive(now, row, column);
            out_char(alive ? '#' : '.');
            living += (unsigned)alive;
        }
        out_char('\n');
    }
    out_number(turns, 0);
    out_text(" turns, ");
    out_number(living, 0);
    out_text(" cells\n");
}

static int read_board(void)
{
    unsigned row = 0, column = 0;
    int got;
    while ((got = sys_read(bytes, sizeof bytes)) > 0) {
        for (int i = 0; i < got; i++) {
            if (bytes[i] == '\n') {
                row++;
                column = 0;
                continue;
            }
            if (row < ROWS && column < COLUMNS)
                set(now, row, column, bytes[i] == '#');
            column++;
        }
    }
    return got < 0;
}

int main(void)
{
    int failed = new_board(now);
    if (failed == 0)
        failed = new_board(next);
    if (failed == 0)
        failed = read_board();
    for (unsigned turns = 1; failed == 0 && turns <= 10; turns++) {
        turn();
        if (turns % 5 == 0)
            print(turns);
    }
    for (unsigned row = 0; row < ROWS; row++) {
        free(now[row]);
        free(next[row]);
    }
    out_flush();
    return failed;
}
