"""Which function carries out which item."""

import effects_marks as marks
import effects_page as page
import effects_plotter as plotter

EFFECTS = {
    "E": page.reset, "UEL": page.reset, "PJL": page.no_effect,
    "9": page.clear_side_margins, "=": page.half_line_feed,
    "CR": page.line_end, "LF": page.line_end, "FF": page.line_end,
    "Text": page.text, "&pX": page.transparent_text,
    "(set": page.set_font_part("symbol_set"), "(3@": page.default_font,
    "(sP": page.set_font_part("spacing"), "(sH": page.set_font_part("pitch"),
    "(sV": page.set_font_part("height"), "(sS": page.set_font_part("style"),
    "(sB": page.set_font_part("weight"), "(sT": page.set_font_part("typeface"),
    "&lA": page.page_size, "&lO": page.orientation, "&lX": page.copies,
    "&lS": page.sides, "&lH": page.source,
    "&lC": page.vmi, "&lD": page.lines_per_inch,
    "&lE": page.top_margin, "&lF": page.text_length,
    "&lL": page.perforation_skip, "&uD": page.pcl_unit,
    "&kH": page.hmi, "&kG": page.line_termination,
    "&aL": page.left_margin, "&aM": page.right_margin, "&aC": page.columns, "&aR": page.rows,
    "&aH": page.decipoints_x, "&aV": page.decipoints_y,
    "*pX": page.units_x, "*pY": page.units_y,
    "&fS": page.push_or_pop, "&fY": marks.macro_id, "&fX": marks.macro_control,
    "*cA": marks.rect_side("rect_width", "unit"), "*cB": marks.rect_side("rect_height", "unit"),
    "*cH": marks.rect_side("rect_width", "decipoint"),
    "*cV": marks.rect_side("rect_height", "decipoint"),
    "*cG": marks.fill_id, "*cP": marks.rectangle,
    "*cT": plotter.frame_anchor, "*cX": plotter.frame_side("frame_width"),
    "*cY": plotter.frame_side("frame_height"),
    "*tR": marks.raster_setting("resolution"), "*rA": marks.raster_start,
    "*rS": marks.raster_setting("raster_width"), "*rT": marks.raster_setting("raster_height"),
    "*rF": marks.raster_setting("presentation"),
    "*rB": marks.raster_end, "*rC": marks.raster_end,
    "*bM": marks.raster_method, "*bY": marks.raster_skip, "*bW": marks.raster_row,
    "%B": plotter.enter_frame, "%A": plotter.leave_frame,
    "IN": plotter.initialize, "SP": plotter.select_pen, "PW": plotter.pen_width,
    "PU": plotter.pen_command, "PD": plotter.pen_command,
    "PA": plotter.pen_command, "PR": plotter.pen_command,
}
