// The kinds of change: what each is called, its fields, and what its button says.

export const OF_ROADS = ["close", "let_in", "let_out", "signal", "speed"];
export const INFORMED = [[0, "none"], [50, "half"], [100, "all"]];

// Of each field its name, the value that it begins with, and what stands behind it; `heard` has a choice of informed
// drivers, `whole` no span.
export const KINDS = {
  close: { title: "Close", fields: () => [], button: "Close road", heard: true },
  let_in: { title: "Let in", fields: road => [["per_hour", road.capacity / 2, "vehicles/h"]], button: "Limit inflow" },
  let_out: { title: "Let out", fields: road => [["per_hour", road.capacity / 2, "vehicles/h"]],
    button: "Limit outflow" },
  signal: { title: "Signal", fields: () => [["green", 30, "s green of"], ["cycle", 90, "s"]], button: "Set signal" },
  speed: { title: "Speed", fields: road => [["kmh", road.kmh * 0.7, "km/h, the whole time"]], button: "Set speed",
    whole: true },
  demand: { title: "Demand", fields: () => [["percent", 150, "% of the case's"]], button: "Change demand" },
  share: { title: "Share", fields: () => [["percent", 0, "% take"]], button: "Change share" },
};
