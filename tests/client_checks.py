"""The checks of clients/python and of the examples that stand on it, which tests/server runs."""
from chain_checks import CHECKS as CHAIN_CHECKS
from feeder_checks import CHECKS as FEEDER_CHECKS
from looking_checks import CHECKS as LOOKING_CHECKS
from module_checks import CHECKS as MODULE_CHECKS
from page_text_checks import CHECKS as PAGE_TEXT_CHECKS
from running_checks import CHECKS as RUNNING_CHECKS
from terminal_checks import CHECKS as TERMINAL_CHECKS
from text_checks import CHECKS as TEXT_CHECKS

CHECKS = (
    *MODULE_CHECKS,
    *PAGE_TEXT_CHECKS,
    *TERMINAL_CHECKS,
    *TEXT_CHECKS,
    *LOOKING_CHECKS,
    *FEEDER_CHECKS,
    *CHAIN_CHECKS,
    *RUNNING_CHECKS,
)
