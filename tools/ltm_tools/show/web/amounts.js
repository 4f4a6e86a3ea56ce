// The units and words of what both maps colour roads by beside queues: flows, misfits to counts, worths of capacity.
import { signed, vehicles } from "./numbers.js";

export const MOST_MISFIT = 30;  // per cent, at the ends of the colours
export const UNITS = { flow: "% of the capacity", misfit: "% more than counted" };
export const worthUnit = unit => `${unit} saved by more capacity`;

export const flowWords = units => `${vehicles(units)} left it in 15 minutes`;
export const misfitWords = more => `${signed(more.toFixed(1), more)} % loaded over counted`;
export const worthWords = (saved, unit) => `more capacity saves ${saved} ${unit}`;
