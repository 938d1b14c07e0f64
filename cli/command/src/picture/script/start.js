// All is drawn once; from then on the reader acts.

byId("main").hidden = false;
tellNumbers();
tellLost();
tellLists();
tellNothing();
makeShapes();
listen();
setScale(0);
onFragment();
document.documentElement.dataset.drawn = Math.round(performance.now());
