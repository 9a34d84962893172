// Corrector and block reader in C, the fastest way that we found.
#include "blocks.h"
#include "check_words.h"
#include "find_pieces.h"
