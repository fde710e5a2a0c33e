"""All cases, topic by topic."""
import carrier_cases
import damage_cases
import gap_cases
import half_cases
import header_cases
import lapb_cases
import link_cases
import tcp_cases
import time_cases
import xot_cases

TOPICS = (
    link_cases, carrier_cases, tcp_cases, gap_cases, half_cases, xot_cases, lapb_cases, damage_cases, header_cases,
    time_cases,
)


def all_cases():
    return [case for topic in TOPICS for case in topic.cases()]
