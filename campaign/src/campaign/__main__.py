"""`python3 -m campaign` is the command `campaign`."""

import sys

from campaign.words import main

sys.exit(main())
