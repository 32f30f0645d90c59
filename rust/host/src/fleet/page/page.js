// What the page does where scripts run: a click on a column's name sorts its table, a second one the other way; a box
// finds stations by name or lessee, and two lists filter them. Nothing is fetched.
(function () {
  var each = function (list, work) { Array.prototype.forEach.call(list, work); };
  var value = function (row, place) { return row.cells[place].getAttribute("data-v") || ""; };
  var number = function (text) { return text === "" ? NaN : Number(text); };
  var compare = function (one, other) {
    var apart = number(one) - number(other);
    return isNaN(apart) ? one.localeCompare(other, "en", { numeric: true }) : apart;
  };
  var sortable = function (table) {
    var body = table.tBodies[0];
    each(table.tHead.rows[0].cells, function (head, place) {
      // No button of the browser's: those are not printed where a table's head is repeated.
      var button = document.createElement("span");
      var sort = function () {
        var down = head.getAttribute("aria-sort") === "ascending";
        each(table.tHead.rows[0].cells, function (other) { other.removeAttribute("aria-sort"); });
        head.setAttribute("aria-sort", down ? "descending" : "ascending");
        var rows = Array.prototype.slice.call(body.rows);
        rows.sort(function (one, other) {
          var order = compare(value(one, place), value(other, place));
          return down ? -order : order;
        });
        rows.forEach(function (row) { body.appendChild(row); });
      };
      button.tabIndex = 0;
      button.setAttribute("role", "button");
      button.textContent = head.textContent;
      head.textContent = "";
      head.appendChild(button);
      button.addEventListener("click", sort);
      button.addEventListener("keydown", function (event) {
        if (event.key === "Enter" || event.key === " ") { event.preventDefault(); sort(); }
      });
    });
  };
  each(document.querySelectorAll("table.sorts"), sortable);

  var find = document.querySelector(".find");
  if (!find) { return; }
  var named = document.querySelectorAll("[data-station]");
  var counted = document.querySelectorAll("table.sorts tbody tr");
  var made = function (name, about) {
    var control = document.createElement(name);
    control.setAttribute("aria-label", about);
    find.appendChild(control);
    return control;
  };
  var chooser = function (key, all) {
    var seen = {}, values = [], list = made("select", all);
    each(counted, function (row) {
      var text = row.getAttribute(key);
      if (!Object.prototype.hasOwnProperty.call(seen, text)) { seen[text] = true; values.push(text); }
    });
    values.sort(compare);
    list.add(new Option(all, ""));
    values.forEach(function (text) { list.add(new Option(text || "(none)", "=" + text)); });
    list.hidden = !(values.length > 1);
    return function (one) { return list.value === "" || list.value === "=" + one.getAttribute(key); };
  };
  var search = made("input", "find a station or a lessee");
  search.type = "search";
  search.placeholder = "find a station or a lessee";
  var filters = [
    chooser("data-lessee", "all lessees"),
    chooser("data-verdict", "all verdicts"),
    function (one) {
      var text = one.getAttribute("data-station") + " " + one.getAttribute("data-lessee");
      return text.toLowerCase().indexOf(search.value.trim().toLowerCase()) >= 0;
    }
  ];
  var told = made("output", "stations that are shown");
  var filter = function () {
    var shown = 0;
    each(named, function (one) {
      one.hidden = !filters.every(function (passes) { return passes(one); });
    });
    each(document.querySelectorAll(".notice"), function (box) { box.hidden = !box.querySelector("li:not([hidden])"); });
    each(counted, function (row) { shown += row.hidden ? 0 : 1; });
    told.textContent = shown === counted.length ? "" : "showing " + shown + " of " + counted.length + " stations; totals are of all";
  };
  find.addEventListener("input", filter);
  find.hidden = !(counted.length > 1);
}());
