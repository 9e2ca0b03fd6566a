/*
 * Names of the calls. PREFIX stands before each, so that one program can hold several; that of a degree has it in its
 * name, and takes none.
 */
#ifndef NAMES_H
#define NAMES_H

#ifndef PREFIX
#define PREFIX mq_
#endif
#define CALL_(prefix, name) prefix##name
#define CALL_IN(prefix, name) CALL_(prefix, name)
#define CALL(name) CALL_IN(PREFIX, name)
#define AT_(prefix, degree, name) prefix##at_##degree##_##name
#define AT_IN(prefix, degree, name) AT_(prefix, degree, name)
#define AT(degree, name) AT_IN(PREFIX, degree, name)

#endif
