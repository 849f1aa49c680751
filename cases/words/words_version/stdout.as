../../../tools/help/version
