../../../tools/help/blk-migrate
