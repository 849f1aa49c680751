../../../tools/help/blk-commands
