#define _GNU_SOURCE /* memfd_create */
#include "rooms.h"
#include "boards.h"

#include <signal.h>
#include <stdio.h>
#include <stdlib.h>
#include <string.h>
#include <sys/mman.h>
#include <unistd.h>

enum { PAGE = 65536 }; /* a multiple of the page of every machine that we run on */

static struct room *rooms;
static void (*tell_fault)(const char *where);

static uint8_t *mapped(void *at, size_t bytes, int access, int flags, int file)
{
    void *memory = mmap(at, bytes, access, flags, file, 0);
    if (memory == MAP_FAILED) {
        perror("mmap");
        exit(2);
    }
    return memory;
}

/* So many bytes that nobody may touch, page and all. */
static uint8_t *untouchable(size_t bytes)
{
    return mapped(NULL, bytes, PROT_NONE, MAP_PRIVATE | MAP_ANONYMOUS | MAP_NORESERVE, -1);
}

static void enter(struct room *room, const char *name, size_t bytes)
{
    *room = (struct room){.name = name, .bytes = (bytes + PAGE - 1) / PAGE * PAGE, .next = rooms};
    room->ours = room->lent = untouchable(PAGE + room->bytes + PAGE) + PAGE;
    rooms = room;
}

/* What may only be read is mapped twice: the harness writes where the library cannot. */
void room_open(struct room *room, const char *name, size_t bytes, enum access access)
{
    enter(room, name, bytes);
    if (access == WRITABLE) {
        mapped(room->lent, room->bytes, PROT_READ | PROT_WRITE, MAP_PRIVATE | MAP_ANONYMOUS | MAP_FIXED, -1);
        return;
    }
    int file = memfd_create(name, 0);
    if (file < 0 || ftruncate(file, (off_t)room->bytes) != 0) {
        perror("memfd_create");
        exit(2);
    }
    mapped(room->lent, room->bytes, PROT_READ, MAP_SHARED | MAP_FIXED, file);
    room->ours = mapped(NULL, room->bytes, PROT_READ | PROT_WRITE, MAP_SHARED, file);
    close(file);
}

void room_open_far(struct room *room, const char *name, size_t bytes, size_t writable)
{
    enter(room, name, bytes);
    mapped(room->lent, room->bytes, PROT_READ, MAP_PRIVATE | MAP_ANONYMOUS | MAP_NORESERVE | MAP_FIXED, -1);
    if (writable)
        mapped(room->lent, (writable + PAGE - 1) / PAGE * PAGE, PROT_READ | PROT_WRITE,
               MAP_PRIVATE | MAP_ANONYMOUS | MAP_FIXED, -1);
}

void *room_lend(struct room *room, size_t length, enum flush flush)
{
    if (length > room->bytes)
        abort();
    room->at = flush == AT_END ? room->bytes - length : 0;
    room->length = length;
    room->flush = flush;
    return room->lent + room->at;
}

void *room_lend_any(struct room *room, size_t length, enum flush flush, struct dice *dice)
{
    static const uintptr_t wild[] = {0, 1, 8, (uintptr_t)1 << 63, UINTPTR_MAX};
    void *slice = room_lend(room, length, flush);
    return length == 0 && dice_below(dice, 100) < 50 ? (void *)wild[dice_below(dice, sizeof wild / sizeof *wild)] : slice;
}

/* An emulator may start a signal's function on a stack that is not aligned as x86-64 has it. */
#ifdef __x86_64__
#define ALIGNED __attribute__((force_align_arg_pointer))
#else
#define ALIGNED
#endif

/* The place by the slice that was lent last from its room; a negative byte lies before it. */
ALIGNED static void on_fault(int signal, siginfo_t *info, void *context)
{
    char where[160] = "an address in no slice that was lent";
    (void)signal, (void)context;
    for (const struct room *room = rooms; room; room = room->next) {
        uintptr_t from = (uintptr_t)room->lent - PAGE, address = (uintptr_t)info->si_addr;
        if (address - from < PAGE + room->bytes + PAGE)
            snprintf(where, sizeof where, "%s, byte %td of a slice of %zu bytes", room->name,
                     (ptrdiff_t)(address - from - PAGE - room->at), room->length);
    }
    tell_fault(where);
}

void rooms_watch(void (*tell)(const char *where))
{
    static uint8_t memory[PAGE];
    stack_t own = {.ss_sp = memory, .ss_size = sizeof memory}; /* the fault may be that there is no stack left */
    struct sigaction action;
    memset(&action, 0, sizeof action);
    action.sa_sigaction = on_fault;
    action.sa_flags = SA_SIGINFO | SA_ONSTACK | (int)SA_RESETHAND;
    tell_fault = tell;
    sigaltstack(&own, NULL);
    sigaction(SIGSEGV, &action, NULL);
    sigaction(SIGBUS, &action, NULL);
}
