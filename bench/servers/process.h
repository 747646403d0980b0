/* What the system says of a process. */
#ifndef PROCESS_H
#define PROCESS_H

/* Processor time in seconds: of a process, of this one, and of all. */
double process_cpu(int process);
double own_cpu(void);
double all_cpu(void);

/* How many KiB of a process are in memory. */
long process_rss(int process);
#endif
