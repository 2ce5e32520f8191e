/* What an object that has queue_c.h asks its library for. */
#include "queue_c.h"

const char QUEUE_C_VERSION_NAME = 0;
