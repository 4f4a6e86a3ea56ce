"""The commands, each a module that is named as it is typed. They alone know `argparse`, and they alone print."""
