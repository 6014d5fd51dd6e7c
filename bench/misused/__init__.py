"""Parts of bench/hostile that stand in files of their own."""
