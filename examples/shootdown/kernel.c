/*
 * Two processors use a page, and then the first one unmaps it. With TELLS it interrupts the second one, which
 * invalidates the page too, and waits for it. Without, it forgets to.
 *
 * The three markers are instructions that do nothing, at which tools/qemu-record stops the guest.
 */
#include <stdint.h>

#define RECORD_START() __asm__ volatile("xchg %%cx, %%cx" ::: "memory")
#define RECORD_POINT() __asm__ volatile("xchg %%bx, %%bx" ::: "memory")
#define RECORD_END() __asm__ volatile("xchg %%dx, %%dx" ::: "memory")

#define SHARED_PAGE ((volatile uint64_t *)0x400000)
#define LOW_PAGE 0x8000
#define SHOOTDOWN_VECTOR 0x40

/* Registers of the local APIC, and commands to it. */
#define APIC(offset) (*(volatile uint32_t *)(0xFEE00000UL + (offset)))
enum { END_OF_INTERRUPT = 0xB0, SPURIOUS = 0xF0, COMMAND_LOW = 0x300, COMMAND_HIGH = 0x310 };
enum { INIT_IPI = 0x4500, STARTUP_IPI = 0x4600, PENDING = 1 << 12, APIC_ON = 0x1FF };

struct gate {
    uint16_t offset_low, selector;
    uint8_t stack, type;
    uint16_t offset_middle;
    uint32_t offset_high, zero;
};

struct table_pointer {
    uint16_t limit;
    uint64_t base;
} __attribute__((packed));

extern uint8_t second_start[], second_start_end[];
extern void interrupt_entry(void);
extern volatile uint64_t page_table[];

static struct gate gates[SHOOTDOWN_VECTOR + 1];

/* What the processors tell each other: that the second one is up, has used the page, and has invalidated it. */
static volatile int is_up, has_used, has_invalidated;

static void invalidate_shared_page(void)
{
    __asm__ volatile("invlpg %0" ::"m"(*SHARED_PAGE) : "memory");
}

static void wait_for(volatile int *flag)
{
    while (!*flag)
        __asm__ volatile("pause");
}

/* Sends an interrupt to the processor with the APIC's number 1. */
static void send(uint32_t command)
{
    APIC(COMMAND_HIGH) = 1 << 24;
    APIC(COMMAND_LOW) = command;
    while (APIC(COMMAND_LOW) & PENDING)
        __asm__ volatile("pause");
}

static void start_second(void)
{
    volatile uint8_t *low = (volatile uint8_t *)LOW_PAGE;
    for (long i = 0; i < second_start_end - second_start; i++)
        low[i] = second_start[i];
    send(INIT_IPI);
    send(STARTUP_IPI | LOW_PAGE >> 12);
    send(STARTUP_IPI | LOW_PAGE >> 12);
    wait_for(&is_up);
}

static void take_interrupts(void)
{
    uint64_t entry = (uint64_t)interrupt_entry;
    struct table_pointer pointer = {sizeof gates - 1, (uint64_t)gates};

    gates[SHOOTDOWN_VECTOR] = (struct gate){
        .offset_low = entry, .selector = 8, .type = 0x8E, .offset_middle = entry >> 16, .offset_high = entry >> 32};
    __asm__ volatile("lidt %0" ::"m"(pointer));
    APIC(SPURIOUS) = APIC_ON;
    __asm__ volatile("sti");
}

void interrupted(void)
{
    invalidate_shared_page();
    has_invalidated = 1;
    APIC(END_OF_INTERRUPT) = 0;
}

void second_processor(void)
{
    take_interrupts();
    is_up = 1;
    while (*SHARED_PAGE != 1)
        __asm__ volatile("pause");
    has_used = 1;
    for (;;)
        __asm__ volatile("pause");
}

void first_processor(void)
{
    APIC(SPURIOUS) = APIC_ON;
    start_second();
    RECORD_START();

    *SHARED_PAGE = 1;
    wait_for(&has_used);

    page_table[0] = 0;
    invalidate_shared_page();
#ifdef TELLS
    send(SHOOTDOWN_VECTOR);
    wait_for(&has_invalidated);
#endif
    RECORD_POINT();
    RECORD_END();
}
