/* What makes calls of the C library fail, for a program that it is linked into. */
#ifndef FAULTS_H
#define FAULTS_H

/* From now on the growth of this number fails, counted from 1; or each from it on. */
void fault_begin(long at, int on, int error);

/* No growth fails any more. Answers whether one did. */
int fault_end(void);

#endif
