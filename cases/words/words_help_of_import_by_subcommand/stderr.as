../../../tools/help/blk-import
