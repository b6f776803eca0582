"""The engines that look for answers in parallel, and the portfolios that run them."""
