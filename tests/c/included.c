/* An object that includes the header and uses nothing of it. */
#include "citations.h"
