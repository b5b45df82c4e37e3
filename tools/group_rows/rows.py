"""The rows of tools/group, by their names."""
from __future__ import annotations

from collections.abc import Callable

import crashes
import lies
from counts import Counts

ROWS: dict[str, Callable[[Counts], str]] = {
    "requests": crashes.requests,
    "kills": crashes.kills,
    "instants": crashes.instants,
    "primary": crashes.primary,
    "all killed": crashes.all_killed,
    "client killed": crashes.client_killed,
    "deaf": crashes.deaf,
    "full disk": crashes.full_disk,
    "no memory": crashes.no_memory,
    "spent keys": crashes.spent,
    "liar": lies.liar,
    "noise": lies.noise,
    "refusals": lies.refusals,
    "wrong order": lies.wrong_order,
    "parties": lies.parties,
}
