// Tests under Node how often each block of the viewer's modules runs. These are read once the counting has begun.
import "./counted.js";

import("./test_blocks.js");
