"""The package of ./dist, which packs the proved programs and libraries."""
NAME = "aig"
SUMMARY = "Questions about digital hardware, and answers that a proved program has checked"
