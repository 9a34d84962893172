// Corrector and block reader in C on the five 64-bit words of a row, as the proved code goes.
#include "blocks.h"
#include "check_words.h"
#include "find_words.h"
