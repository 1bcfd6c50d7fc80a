#include <stdio.h>
#include <string.h>

#include "peer_halve.h"
#include "same.h"

/* The room behind the lent list shows a number written too far. The old numbers all differ, so that one that was only
 * moved shows too. */
enum { LIST_MAX = FLOODRAFTER_BOXES_MAX * FLOODRAFTER_LISTED, NUMBERS = LIST_MAX + 64, OLD_NUMBER = 1000000000 };

struct listed {
    floodrafter_listing listing;
    int64_t list[NUMBERS];
};

static void make_old(struct listed *l)
{
    for (int k = 0; k < NUMBERS; k++)
        l->list[k] = OLD_NUMBER + k;
}

static bool equal(floodrafter_listing a, floodrafter_listing b)
{
    return a.fault == b.fault && a.line == b.line && a.n == b.n && a.boxes == b.boxes;
}

/* The first place where the lists differ: past all numbers where none does. */
static int difference(const struct listed *a, const struct listed *b)
{
    int k = 0;
    while (k < NUMBERS && a->list[k] == b->list[k])
        k++;
    return k;
}

static void tell(const char *name, floodrafter_listing l)
{
    unsigned long long fault = l.fault, line = l.line;
    printf("%-8s fault %llu, line %llu, n %zu, boxes %zu\n", name, fault, line, l.n, l.boxes);
}

bool same_halved(const uint8_t *text, size_t text_len, int64_t depth, size_t list_len)
{
    static struct listed library, peer;
    make_old(&library);
    make_old(&peer);
    library.listing = floodrafter_halve(text, text_len, depth, library.list, list_len);
    peer.listing = peer_halve(text, text_len, depth, peer.list, list_len);
    int k = difference(&library, &peer);
    if (equal(library.listing, peer.listing) && k == NUMBERS)
        return true;
    printf("halve: the answers differ at depth %lld with a list of %zu numbers\n", (long long)depth, list_len);
    tell("library:", library.listing);
    tell("peer:", peer.listing);
    if (k < NUMBERS)
        printf("place %d: library %lld, peer %lld\n", k, (long long)library.list[k], (long long)peer.list[k]);
    tell_text(text, text_len);
    return false;
}
