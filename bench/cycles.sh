#!/bin/sh
# Times the life of a lend: lend, retrieve, release, relinquish, reclaim.
exec "$(dirname "$0")/run.sh" cycles 'base descr descw manifest pool spm'
