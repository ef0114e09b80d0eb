aix {single, single, single, single}(pointer, {single, single, single, single}, single, {single, single, single, single}, i16)
