/* The families of distributions. tools/families writes the list: a name in lower and in upper case, and the number. */
#ifndef FAMILIES_H
#define FAMILIES_H

#define FAMILIES_BY(MACRO) MACRO(gaussian, GAUSSIAN, 0) MACRO(laplace, LAPLACE, 1) MACRO(logistic, LOGISTIC, 2)
#define ONE_FAMILY(name, NAME, number) +1
enum { FAMILIES = FAMILIES_BY(ONE_FAMILY) };

#endif
