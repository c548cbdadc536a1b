import os
import sys

sys.dont_write_bytecode = True
sys.path[0] = os.path.dirname(os.path.dirname(os.path.abspath(__file__)))
from model.words import main  # noqa: E402

main(sys.argv[1:])
