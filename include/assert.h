/* <assert.h>; a failed assertion ends the program without a message. It may be included again, with another NDEBUG. */
#undef assert
void abort(void);
#ifdef NDEBUG
#define assert(expression) ((void)0)
#else
#define assert(expression) ((expression) ? (void)0 : abort())
#endif
