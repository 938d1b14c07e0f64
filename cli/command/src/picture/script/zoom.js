// Zooming and scrolling.

// Sets the pixels a step; the point of the run at `anchor` pixels from the left of the window stays there.
function setScale(wanted, anchor) {
  view.room = (view.printing ? PRINTED : scroll.clientWidth) - LABELS; // kept: asking again and again is slow
  if (anchor === undefined) anchor = view.room / 2;
  const fit = fitScale(), step = (scroll.scrollLeft + anchor - LEAD) / view.scale;
  view.scale = Math.min(Math.max(wanted, fit), Math.max(NEAREST, fit));
  view.atFit = view.scale <= fit * 1.0001;
  place();
  scroll.scrollLeft = xAt(step) - anchor;
  placeView();
  byId("farther").disabled = byId("whole").disabled = view.atFit;
  byId("nearer").disabled = view.scale >= NEAREST;
}

const zoomBy = (factor, anchor) => setScale(view.scale * factor, anchor);

function zoomTo(first, last) {
  setScale(view.room / (last - first + 1) * 0.7);
  centre(xAt((first - 1 + last) / 2));
}

function centre(x) {
  scroll.scrollLeft = x - view.room / 2;
  placeView();
}
