// Calling the C library on a case. Each call answers what is not as the reference's answer asks.

#pragma once

#include <optional>
#include <string>

#include "cases.hpp"

// Whether the C library is linked at all.
bool library_is_there();

std::optional<std::string> disagreement_on_graph(const Case &given);
std::optional<std::string> disagreement_on_recipe(const Case &given);
std::optional<std::string> disagreement_on_filter(const Case &given, const reference::Answer<reference::Records> &expected);
