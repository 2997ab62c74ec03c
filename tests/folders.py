"""The modules of the tests are in folders by subject: after `import folders` each is imported by its own name."""
import sys
from pathlib import Path

sys.path[1:1] = sorted({str(module.parent) for module in Path(__file__).parent.glob("*/*.py")})
