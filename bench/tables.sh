#!/bin/sh
# Times edits of translation tables, and sends.
exec "$(dirname "$0")/run.sh" tables 'base descr descw manifest pool stage2 spm'
