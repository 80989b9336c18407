"""The parts of tools/plain_rust."""
