/* order COUNT [drawn]: puts the lines in order that crates/cov_order_bench puts, on pages of 256 lines with an array of the page of
 * each line, and prints the same number. All memory is taken at the start. */
#include <stdint.h>
#include <stdio.h>
#include <stdlib.h>
#include <string.h>

enum { MOST = 256, HALF = MOST / 2 };

struct page {
    uint32_t next, used, lines[MOST];
};

static struct page *pages;
static uint32_t *page_of, page_count = 1;

/* The second half of a full page, on a new page behind it. */
static void split(uint32_t number)
{
    struct page *first = pages + number, *second = pages + page_count;
    memcpy(second->lines, first->lines + HALF, sizeof *first->lines * (MOST - HALF));
    second->used = MOST - HALF;
    second->next = first->next;
    first->used = HALF;
    first->next = page_count;
    for (uint32_t place = 0; place < second->used; place++)
        page_of[second->lines[place]] = page_count;
    page_count++;
}

static void insert_after(uint32_t anchor, uint32_t line)
{
    if (pages[page_of[anchor]].used == MOST)
        split(page_of[anchor]);
    struct page *page = pages + page_of[anchor];
    uint32_t place = 0;
    while (page->lines[place++] != anchor)
        ;
    memmove(page->lines + place + 1, page->lines + place, sizeof *page->lines * (page->used - place));
    page->lines[place] = line;
    page->used++;
    page_of[line] = page_of[anchor];
}

int main(int argc, char **argv)
{
    uint32_t count = argc > 1 ? strtoul(argv[1], NULL, 10) : 0, drawn = argc > 2, walked = 0;
    pages = malloc(sizeof *pages * (count / HALF + 2));
    page_of = malloc(sizeof *page_of * ((size_t)count + 1));
    uint32_t *order = malloc(sizeof *order * ((size_t)count + 1));
    if (count == 0 || !pages || !page_of || !order)
        return 2;
    pages[0] = (struct page){.used = 1, .lines = {1}};
    page_of[1] = 0;
    uint64_t state = 7;
    for (uint32_t line = 2; line <= count; line++) {
        state = state * 6364136223846793005u + 1442695040888963407u;
        insert_after(drawn ? 1 + (state >> 33) % (line - 1) : 1, line);
    }
    uint32_t number = 0;
    do {
        memcpy(order + walked, pages[number].lines, sizeof *order * pages[number].used);
        walked += pages[number].used;
        number = pages[number].next;
    } while (number);
    uint64_t sum = 14695981039346656037u;
    for (uint32_t place = 0; place < walked; place++)
        sum = (sum ^ order[place]) * 1099511628211u;
    printf("%016llx\n", (unsigned long long)sum);
    return 0;
}
