// The cases that a plain grid evaluator can do too.

#pragma once

#include <optional>

#include "cases.hpp"

// The vertex records that the grid evaluator makes of a picture of two pixels or more. None where the case is no undamaged
// picture, or has words that the grid does not know: A, and O and C of odd sizes.
std::optional<reference::Bytes> vertices_by_grid(const Case &given);
