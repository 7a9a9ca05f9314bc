/* Runs each call, for each caller, on stacks that are too small for it: from one that is enough for no call at all,
 * doubled up to 1 KB, then in steps of 1 KB until one is large enough. Below each stack lie a page that nobody may
 * touch and, below that, memory that must stay as it is. A call that runs out of stack is stopped at the first address
 * that it touches in that page, and has written nothing below. */
#define _GNU_SOURCE
#include <signal.h>
#include <sys/mman.h>
#include <sys/wait.h>
#include <ucontext.h>
#include <unistd.h>

/* Enough for the script to be halved. */
enum { MOVES = 300000 };
#include "calls.h"

enum { PAGE = 4096, LEAST = 16, STEP = 1024, BELOW = 1 << 20, STACK = 512 << 10, UNTOUCHED = 0xA5 };
enum { RETURNED = 0, STOPPED = 40, ELSEWHERE = 41, OVERWRITTEN = 42 };

/* The memory below, the page, and the stack, which ends where the memory ends. */
static uint8_t *memory;

static void stopped(int signal, siginfo_t *info, void *context) {
    (void)signal, (void)context;
    uint8_t *touched = (uint8_t *)info->si_addr;
    for (size_t place = 0; place < BELOW; place++) {
        if (memory[place] != UNTOUCHED) {
            _exit(OVERWRITTEN);
        }
    }
    _exit(memory + BELOW <= touched && touched < memory + BELOW + PAGE ? STOPPED : ELSEWHERE);
}

/* In a process of its own: the call on a stack of so many bytes. */
static void run(void (*call)(void), size_t stack) {
    static uint8_t signal_stack[64 << 10];
    stack_t alternate = {.ss_sp = signal_stack, .ss_size = sizeof signal_stack};
    struct sigaction action = {.sa_sigaction = stopped, .sa_flags = SA_SIGINFO | SA_ONSTACK};
    memory = mmap(NULL, BELOW + PAGE + STACK, PROT_READ | PROT_WRITE, MAP_PRIVATE | MAP_ANONYMOUS, -1, 0);
    if (memory == MAP_FAILED || mprotect(memory + BELOW, PAGE, PROT_NONE) || sigaltstack(&alternate, NULL)
        || sigaction(SIGSEGV, &action, NULL) || sigaction(SIGBUS, &action, NULL)) {
        _exit(ELSEWHERE);
    }
    memset(memory, UNTOUCHED, BELOW);
    static ucontext_t outside, inside;
    getcontext(&inside);
    inside.uc_stack = (stack_t){.ss_sp = memory + BELOW + PAGE, .ss_size = stack};
    inside.uc_link = &outside;
    makecontext(&inside, call, 0);
    swapcontext(&outside, &inside);
    _exit(RETURNED);
}

/* How the call ends on a stack of so many bytes. */
static int ends(void (*call)(void), size_t stack) {
    pid_t child = fork();
    if (child == 0) {
        run(call, stack);
    }
    int status;
    if (child < 0 || waitpid(child, &status, 0) != child || !WIFEXITED(status)) {
        return ELSEWHERE;
    }
    return WEXITSTATUS(status);
}

/* The first stack, from this one on, on which the call is not stopped but returns. */
static size_t enough(const char *name, void (*call)(void), size_t stack) {
    int end = ends(call, stack);
    for (; end == STOPPED && stack < STACK; end = ends(call, stack)) {
        stack += stack < STEP ? stack : STEP;
    }
    if (end != RETURNED) {
        fprintf(stderr, "overflow: %s for caller %u on %zu bytes of stack: %s\n", name, caller, stack,
                end == OVERWRITTEN ? "memory below is overwritten" : "it is not stopped at the page below");
        exit(1);
    }
    return stack;
}

static void nothing(void) {}

int main(void) {
    for (size_t served = 0; served < CALLERS; served++) {
        serve(callers[served]);
        build();
        size_t without = enough("no call", nothing, LEAST);
        for (size_t call = 0; call < CALLS; call++) {
            size_t stack = enough(calls[call].name, calls[call].make, without);
            if (stack == without) {
                fprintf(stderr, "overflow: %s is never stopped\n", calls[call].name);
                return 1;
            }
            printf("%s %zu\n", calls[call].name, stack);
        }
    }
    return 0;
}
