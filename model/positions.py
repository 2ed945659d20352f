"""Positional scores: the weights of the places at which an alternative stands."""


def positional_scores(weights, profile):
    """A place behind the last weight has that weight."""
    scores = dict.fromkeys(profile.members, 0)
    for weight, order in profile.lines:
        for place, alternative in enumerate(order):
            scores[alternative] += weight * weights[min(place, len(weights) - 1)]
    return scores
