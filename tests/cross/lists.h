/* Not proved: random requests that the tables mostly allow, the same ones on every processor, for the programs of tests/cross. (So no two calls
 * of below stand in one list of arguments: C leaves their order open.) */
#ifndef LISTS_H
#define LISTS_H

#include "keeper_easy.h"

static uint32_t seed = 1;
static uint32_t below(uint32_t most)
{
    seed ^= seed << 13;
    seed ^= seed >> 17;
    seed ^= seed << 5;
    return seed % most;
}

/* Mostly one of the first few, so that requests meet; else any, and one too many too. */
static uint32_t near(size_t most)
{
    return below(8) != 0 ? below(most < 4 ? (uint32_t)most : 4) : below((uint32_t)most + 1);
}

/* The kinds by how often they are wanted; those that the header gets later come by the other half. For stretches there are no turns, so that
 * the line fills. */
static uint32_t some_kind(void)
{
    static uint32_t made;
    static const uint8_t often[] = {
        KEEPER_CREATE, KEEPER_ACTIVATE, KEEPER_ACTIVATE, KEEPER_FAULT, KEEPER_FAULT, KEEPER_WRITE, KEEPER_WRITE, KEEPER_WRITE, KEEPER_READ,
        KEEPER_CLAIM, KEEPER_PAGE_DONE, KEEPER_PAGE_DONE, KEEPER_UPDATE, KEEPER_MAP_DONE, KEEPER_WIRE, KEEPER_UNWIRE, KEEPER_JOIN, KEEPER_TURN,
        KEEPER_TURN};
    const uint32_t kind = below(2) != 0 ? often[below(sizeof often)] : 1 + below(24);
    return kind == KEEPER_TURN && made++ % 256 < 96 ? KEEPER_JOIN : kind;
}

/* What a kind's first value is: a frame in transfer, a slot with an update under way, an account, or a slot. */
static uint32_t first_of(const Keeper *keeper, uint32_t kind)
{
    switch (kind) {
    case KEEPER_PAGE_DONE: return keeper_next_transfer(keeper, below((uint32_t)keeper->sizes.frames)).frame;
    case KEEPER_MAP_DONE: return keeper_next_update(keeper, below((uint32_t)keeper->sizes.slots));
    case KEEPER_LIMIT:
    case KEEPER_MOVE: return near(keeper->sizes.accounts);
    default: return near(keeper->sizes.slots);
    }
}

static uint32_t second_of(const Keeper *keeper, uint32_t kind, uint32_t first)
{
    switch (kind) {
    case KEEPER_PAGE_DONE:
    case KEEPER_MAP_DONE: return below(6) != 0 ? 1 : below(3);
    case KEEPER_MOVE: return first < keeper->sizes.accounts && below(2) != 0 ? keeper->parents[first] : near(keeper->sizes.accounts);
    case KEEPER_CREATE: return near(keeper->sizes.accounts);
    case KEEPER_LIMIT: return below(3) != 0 ? below(8) : below(70000);
    default: return near(keeper->sizes.pages);
    }
}

/* A design's: mostly one that can be given, else a small one, of 2,147,483,648 or more, or, seldom, near the last that is taken. */
static uint32_t some_number(const Keeper *keeper)
{
    const uint32_t way = below(120);
    if (way < 2)
        return 0x7FFFFFFDu + below(6);
    return way < 12 ? 0x80000000u + below(4) : way < 30 ? below(30) : keeper_next_number(keeper) + below(2);
}

static uint32_t third_of(const Keeper *keeper, uint32_t kind)
{
    switch (kind) {
    case KEEPER_CREATE: return some_number(keeper);
    case KEEPER_MOVE: return below(6);
    default: return near(keeper->sizes.words);
    }
}

static KeeperRequest some_request(const Keeper *keeper)
{
    KeeperRequest request;
    request.kind = some_kind();
    request.first = first_of(keeper, request.kind);
    request.second = second_of(keeper, request.kind, request.first);
    request.third = third_of(keeper, request.kind);
    request.fourth = below(4) != 0 ? below(0xFFFFFFFFu) : 0;
    return request;
}

/* A keeper in a block that is large enough for any sizes, formatted with each account under the one below it, and restarted. */
static KeeperAnswer new_disk(Keeper *keeper, KeeperSizes sizes, void *block, size_t bytes)
{
    uint16_t chain[KEEPER_MOST_ACCOUNTS];
    for (uint16_t account = 0; account < KEEPER_MOST_ACCOUNTS; account++)
        chain[account] = (uint16_t)(account == 0 ? 0 : account - 1);
    memset(block, 0xA5, bytes);
    if (keeper_place(keeper, sizes, block, bytes) != KEEPER_PLACED || keeper_easy_format(keeper, chain).refusal != KEEPER_DONE)
        return (KeeperAnswer){KEEPER_NO_FIT, 0};
    return keeper_easy_restart(keeper);
}

#endif
