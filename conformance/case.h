/* What a family of cases stands on: the registers of the hypervisor extension, numbers from the seed, a
   case's line or sum, and the way to make one instruction in a mode. */
#include <stdbool.h>
#include <stdint.h>
#include "csrs.h" /* the registers by their numbers, which conformance/build makes of tools/csrs.txt */

typedef uint64_t u64;
typedef uint32_t u32;

/* The instruction's place in each mode, in start.s. */
extern u32 stub_supervisor[], stub_user[], stub_hypervisor[];
/* Places of handlers: of all traps into HS, and tables of 16 entries for HS and for VS. */
extern char trap[], vectors[], guest_vectors[];
void enter(void);

enum mode { HS, U, VS, VU };
extern const char *const mode_names[4];

/* What goes into a mode, and what comes out of it. start.s knows the first five. `trapped` is 0 without a
   trap into HS, 1 behind `trap`, and 1 more than the number of the entry behind `vectors`. */
struct hart {
    u64 kept, a0, a1, a2, trapped;
    u64 pc, cause, tval, epc, htval, htinst, hstatus, sstatus;
};
extern struct hart hart;
/* What stvec is in cases: `trap`, if the family writes no other. */
extern u64 handler;

#define read_csr(number) \
    ({ u64 value_; __asm__ volatile("csrr %0, %1" : "=r"(value_) : "i"(number)); value_; })
#define write_csr(number, value) __asm__ volatile("csrw %0, %1" : : "i"(number), "r"((u64)(value)) : "memory")

#define SSTATUS_SPP (1ul << 8)
#define SSTATUS_SUM (1ul << 18)
#define SSTATUS_MXR (1ul << 19)
#define HSTATUS_GVA (1ul << 6)
#define HSTATUS_SPV (1ul << 7)
#define HSTATUS_SPVP (1ul << 8)
#define HSTATUS_HU (1ul << 9)
#define ECALL 0x73
#define JUMP_BACK 0x000F0067    /* how a case in HS ends: jr t5 */
#define LONG 0x100              /* where in a stub several instructions stand */
#define NO_TRAP 0xFF            /* the cause where a case in HS ends without a trap */

/* Numbers of a case: the same for the same seed and case. */
u64 any(void);
u64 below(u64 bound);
static inline bool once_in(u64 bound) { return below(bound) == 0; }

/* MODE of satp, vsatp and hgatp, and whether cases may have it. They may have Sv39 always. */
enum { SV39 = 8, SV48 = 9 };
bool may_have(u64 mode);

/* The line of a case. `told` are words that say what it is; `got` is a value that the standard decides,
   `chosen` one that rests on a choice. */
void told(const char *words);
void told_number(const char *words, u64 number);
void got(const char *name, u64 value);
void chosen(const char *name, u64 value);
void got_or_chosen(bool is_chosen, const char *name, u64 value);

/* Makes `word` in the mode, with a0 to a2 of hart, and keeps what it comes to: the trap into HS that ends
   it. `status` and `hypervisor` are sstatus and hstatus without SPP and SPV. */
void make(enum mode mode, u32 word, u64 status, u64 hypervisor);
/* Makes these words, one after the other, at most 64. */
void make_all(enum mode mode, const u32 *words, u64 count, u64 status, u64 hypervisor);
/* Where the mode's instructions are fetched, and a way to write there: it fences. */
u32 *stub_of(enum mode mode);
void put_words(u32 *place, const u32 *words, u64 count);
/* The place of an address: what it is behind the start of a mode's stub, or itself. */
u64 place(u64 address);
/* htinst, with 0 for what may stand in the place of 0: the transformed instruction. */
u64 plain_htinst(u32 word);
void fence_all(void);

/* Of each family: prepares what all cases share; makes the case of this number. */
void prepare(void);
void one_case(u64 number);
