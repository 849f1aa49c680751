../../../tools/help/no-words
