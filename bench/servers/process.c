#define _GNU_SOURCE
#include "process.h"

#include <stdio.h>
#include <time.h>
#include <unistd.h>

#include "clients.h"

static double seconds_of(clockid_t clock)
{
    struct timespec time;
    if (clock_gettime(clock, &time))
        die("clock_gettime");
    return (double)time.tv_sec + (double)time.tv_nsec / 1e9;
}

double process_cpu(int process)
{
    clockid_t clock;
    if (clock_getcpuclockid(process, &clock))
        die("the clock of the server");
    return seconds_of(clock);
}

double own_cpu(void)
{
    return seconds_of(CLOCK_PROCESS_CPUTIME_ID);
}

double all_cpu(void)
{
    FILE *file = fopen("/proc/stat", "r");
    unsigned long long user, nice, system, idle, waits, irq, soft, stolen;
    if (!file
        || fscanf(file, "cpu %llu %llu %llu %llu %llu %llu %llu %llu", &user, &nice, &system, &idle, &waits, &irq, &soft, &stolen) != 8)
        die("/proc/stat");
    fclose(file);
    return (double)(user + nice + system + irq + soft + stolen) / (double)sysconf(_SC_CLK_TCK);
}

long process_rss(int process)
{
    char name[64], line[256];
    long kib = 0;
    snprintf(name, sizeof name, "/proc/%d/status", process);
    FILE *file = fopen(name, "r");
    if (file) {
        while (fgets(line, sizeof line, file) && sscanf(line, "VmRSS: %ld", &kib) != 1)
            ;
        fclose(file);
        return kib;
    }
    die(name);
}
