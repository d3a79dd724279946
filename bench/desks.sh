#!/bin/sh
# Times calls over one desk, for 1, 2, 4 and 8 threads.
exec "$(dirname "$0")/run.sh" desks 'base manifest pool spm desk'
