#!/bin/sh
# Times the readers of descriptors.
exec "$(dirname "$0")/run.sh" readers 'base descr descw'
