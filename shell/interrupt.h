/* Signals that ask a run to end: SIGHUP, SIGINT and SIGTERM. They are noted, so that the run can end in order. */
#ifndef INTERRUPT_H
#define INTERRUPT_H

/* From here on these signals are noted, but for one that was ignored before, which stays so. Once one came, SIGPIPE does not
   end the program. */
void catch_interrupts(void);

/* They do again what they did before, unless one came: a second one then does no harm either. */
void release_interrupts(void);

/* The signal that came first; 0 if none did. */
int interrupted_by(void);

/* Its name: "SIGINT". */
const char *interrupt_name(int number);

#endif
