/* Runs an image of x64 under Linux up to its crash: the image is mapped where it wants to be, imports nothing, and starts on a stack of
   its own, whose first return address is 0. What is known of the crash comes out on standard output: the 17 registers rax, rcx, rdx,
   rbx, rsp, rbp, rsi, rdi, r8 to r15, rip, the address that it asked for, and the stack from rsp on. */
#define _GNU_SOURCE
#include <signal.h>
#include <stdint.h>
#include <stdio.h>
#include <stdlib.h>
#include <string.h>
#include <sys/mman.h>
#include <ucontext.h>
#include <unistd.h>

enum { STACK = 1 << 16, STACK_AT = 1 << 24, ABOVE = 256 };
static const int ORDER[] = {REG_RAX, REG_RCX, REG_RDX, REG_RBX, REG_RSP, REG_RBP, REG_RSI, REG_RDI, REG_R8,
                            REG_R9, REG_R10, REG_R11, REG_R12, REG_R13, REG_R14, REG_R15, REG_RIP};
static unsigned char *stack;

static void crashed(int number, siginfo_t *info, void *of)
{
    const ucontext_t *context = of;
    uint64_t words[18];
    for (int i = 0; i < 17; i++)
        words[i] = (uint64_t)context->uc_mcontext.gregs[ORDER[i]];
    words[17] = (uint64_t)info->si_addr;
    size_t length = (size_t)(stack + STACK - (unsigned char *)words[4]);
    _exit(number == SIGSEGV && write(1, words, sizeof words) == sizeof words &&
                  write(1, (void *)words[4], length) == (ssize_t)length
              ? 0
              : 1);
}

static uint32_t u32(const unsigned char *at)
{
    uint32_t value;
    memcpy(&value, at, 4);
    return value;
}

int main(int count, char **words)
{
    static unsigned char file[1 << 20];
    FILE *opened = count == 2 ? fopen(words[1], "rb") : NULL;
    size_t length = opened ? fread(file, 1, sizeof file, opened) : 0;
    if (length < 1024)
        return 2;
    const unsigned char *headers = file + u32(file + 0x3C), *optional = headers + 24;
    uint64_t base;
    memcpy(&base, optional + 24, 8);
    unsigned char *image = mmap((void *)base, u32(optional + 56), PROT_READ | PROT_WRITE | PROT_EXEC,
                                MAP_PRIVATE | MAP_ANONYMOUS | MAP_FIXED_NOREPLACE, -1, 0);
    stack = mmap((void *)STACK_AT, STACK, PROT_READ | PROT_WRITE, MAP_PRIVATE | MAP_ANONYMOUS | MAP_FIXED_NOREPLACE, -1, 0);
    if (image != (void *)base || stack != (void *)STACK_AT)
        return 2;
    memcpy(image, file, u32(optional + 60));
    const unsigned char *section = optional + (headers[20] | headers[21] << 8);
    for (int i = headers[6] | headers[7] << 8; i > 0; i--, section += 40)
        memcpy(image + u32(section + 12), file + u32(section + 20), u32(section + 16));
    stack_t other = {.ss_sp = malloc(1 << 16), .ss_size = 1 << 16};
    struct sigaction action = {.sa_sigaction = crashed, .sa_flags = SA_SIGINFO | SA_ONSTACK};
    if (sigaltstack(&other, NULL) || sigaction(SIGSEGV, &action, NULL))
        return 2;
    __asm__ volatile("mov %0, %%rsp\n\txor %%ebx, %%ebx\n\txor %%ecx, %%ecx\n\txor %%edx, %%edx\n\txor %%esi, %%esi\n\t"
                     "xor %%edi, %%edi\n\txor %%ebp, %%ebp\n\txor %%r8d, %%r8d\n\txor %%r9d, %%r9d\n\txor %%r10d, %%r10d\n\t"
                     "xor %%r11d, %%r11d\n\txor %%r12d, %%r12d\n\txor %%r13d, %%r13d\n\txor %%r14d, %%r14d\n\t"
                     "xor %%r15d, %%r15d\n\tpush $0\n\tjmp *%%rax"
                     :
                     : "r"(stack + STACK - ABOVE), "a"(image + u32(optional + 16)));
    return 2;
}
